#!/usr/bin/env python3
"""Plays the store of desk.sj, which gets the customer's session from the desk and goes on where the desk stopped.
usage: examples/desk.py [WORD..], where SJSEAT names the program and the words come after the party; without any they are `--local`.
Prints what was asked for, and the transcript"""
import os
import sys

HERE = os.path.dirname(os.path.abspath(__file__))
sys.path.insert(0, HERE + "/../clients")
os.environ.setdefault("SJSEAT", HERE + "/../crates/sjseat/out/sjseat")
from seat import BeginsOtherwise, Session, Waiting  # noqa: E402

PRICES = {"an umbrella": 12, "a hat": 20}


def take(end, *name):
    """What is next, once it is there."""
    while True:
        try:
            return store.take(end, *name)
        except Waiting:
            pass


with Session(HERE + "/desk.sj", "store", *sys.argv[1:]) as store:
    customer = take("u", "s")
    try:
        store.send(customer, 0)
    except BeginsOtherwise as rule:
        print("no price yet:", rule)
    wanted = take(customer)
    print("wanted:", wanted)
    store.send(customer, PRICES.get(wanted, 99))
    store.close(customer)
    store.close("u")
print(store.rest, end="")
sys.exit(store.status)
