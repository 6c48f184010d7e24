#!/usr/bin/env python3
"""An HTTP front whose requests are sessions: each request plays Ann of desk.sj in a run of its own, and is answered by what the store says.
usage: examples/front.py [PORT], where SJSEAT names the program; with --try it asks itself for two prices, and what is refused.

GET /price?of=an%20umbrella     200 {"of": "an umbrella", "price": 12}
what a rule refuses             400 {"rule": "NoForm", "why": ..}: a text with a quote
nothing came in time            504
nothing is done any more        502"""
import http.server
import json
import os
import sys
import threading
import urllib.error
import urllib.parse
import urllib.request

HERE = os.path.dirname(os.path.abspath(__file__))
sys.path.insert(0, HERE + "/../clients")
os.environ.setdefault("SJSEAT", HERE + "/../crates/sjseat/out/sjseat")
from seat import Refused, Session, Stopped, Waiting  # noqa: E402


def price_of(thing):
    with Session(HERE + "/desk.sj", "ann", "--patience", "20000") as ann:  # some seconds
        ann.send("x", thing)
        price = ann.take("x")
        ann.close("x")
    return price


class Front(http.server.BaseHTTPRequestHandler):
    def do_GET(self):
        url = urllib.parse.urlsplit(self.path)
        asked = urllib.parse.parse_qs(url.query).get("of")
        if url.path != "/price" or not asked:
            return self.say(404, {"why": "GET /price?of=.."})
        try:
            self.say(200, {"of": asked[0], "price": price_of(asked[0])})
        except Refused as rule:
            self.say(400, {"rule": type(rule).__name__, "why": str(rule)})
        except (Waiting, Stopped) as rule:
            self.say(504 if isinstance(rule, Waiting) else 502, {"why": str(rule)})

    def say(self, status, what):
        text = json.dumps(what).encode() + b"\n"
        self.send_response(status)
        self.send_header("Content-Type", "application/json")
        self.send_header("Content-Length", str(len(text)))
        self.end_headers()
        self.wfile.write(text)

    def log_message(self, *words):
        pass


def tried(port):
    """What is answered to a text of the file, to another one, to one with a quote, and to no question."""
    for path in ["/price?of=an%20umbrella", "/price?of=a%20boat", "/price?of=a%22b", "/"]:
        try:
            with urllib.request.urlopen("http://127.0.0.1:%d%s" % (port, path), timeout=60) as answer:
                print(answer.status, answer.read().decode(), end="")
        except urllib.error.HTTPError as answer:
            print(answer.code, answer.read().decode(), end="")


is_try = sys.argv[1:] == ["--try"]
with http.server.ThreadingHTTPServer(("127.0.0.1", 0 if is_try else int((sys.argv[1:] or ["8000"])[0])), Front) as server:
    if is_try:
        threading.Thread(target=server.serve_forever, daemon=True).start()
        tried(server.server_address[1])
        server.shutdown()
    else:
        print("http://127.0.0.1:%d/price?of=an%%20umbrella" % server.server_address[1], flush=True)
        server.serve_forever()
