#!/bin/sh
# Writes the files of made/ from words.txt: the man page, and the completions for bash and zsh.
# usage: cli/make.sh [FOLDER], where FOLDER is made/ beside it if left out
cli=$(CDPATH='' cd "$(dirname "$0")" && pwd) || exit 2
to=${1:-$cli/made}
mkdir -p "$to" || exit 2
write() {
    kind=$1
    file=$2
    shift 2
    LC_ALL=C awk -f "$cli/words.awk" -f "$cli/$kind.awk" "$cli/words.txt" "$@" >"$to/$file" || exit 2
}
write man sj.1 "$(cat "$cli/../VERSION")"
write bash sj.bash
write zsh _sj
