#!/bin/sh
# Runs the program `sj` with these words, by start.sh beside this file, also where it is called by a link.
self=$0
while [ -L "$self" ]; do
    to=$(readlink "$self") || exit 127
    case $to in
        /*) self=$to ;;
        *) self=$(dirname "$self")/$to ;;
    esac
done
exec "$(dirname "$self")/start.sh" sj "$0" "$@"
