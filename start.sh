#!/bin/sh
# Runs one of the programs of this repository: start.sh PROGRAM CALLED WORDS.., where CALLED is the name by which its
# script was called. The program reads standard input, and knows the words of docs/FORMATS.md; files, pages of help and
# all else that cli/words.txt calls `extra` or `common` are done here, and in cli/. The status is the program's, and 127
# where neither it nor the toolchain is there.
here=$(CDPATH='' cd "$(dirname "$0")" && pwd) || exit 127
cli=$here/cli
name=$1
called=$2
shift 2
plan=$(LC_ALL=C awk -f "$cli/words.awk" -f "$cli/line.awk" "$cli/words.txt" "$called" "$name" "$@") || exit
json='' strict='' signed=0
eval "$plan"
case $kind in
    help) exec awk -f "$cli/words.awk" -f "$cli/page.awk" "$cli/words.txt" "$name" "$page" ;;
    version)
        echo "$name $(cat "$here/VERSION") (Porcharnica)"
        echo "toolchain: $(cat "$cli/kit.txt")"
        exit
        ;;
esac

# of the words those that are files, or the folder of --install
at=0
for word do
    shift
    at=$((at + 1))
    case " $files " in *" $at "*) set -- "$@" "$word" ;; esac
done
if [ "$kind" = install ]; then
    [ "$signed" -eq 0 ] || set -- "${1#--install=}"
    . "$cli/install.sh"
    install_in "$1"
    exit
fi

. "$cli/built.sh"
. "$cli/answer.sh"
find_built
if [ "$kind" = build ]; then
    build
    exit
fi

# where a human reads
if [ "$#" -eq 0 ] && [ "$reads" -eq 1 ] && [ -t 0 ]; then
    echo "$called: no file is named, and standard input is a terminal; name a file, or - to type one" >&2
    exit 1
fi
if [ -t 1 ] && [ -t 2 ]; then
    case $page in
        sim) echo "$name sim: a transcript lists messages by session and side, not by time" >&2 ;;
        run) echo "$name run: a transcript lists messages by session and side, not by time; --log adds an order of events" >&2 ;;
    esac
fi
if [ "$name" = sjwhy ] && [ -t 1 ] && [ -z "$json" ] && [ -z "${NO_COLOR-}" ]; then
    case " $words " in *" --colour "*) ;; *) words="--colour $words" ;; esac
fi
answer_all "$@"
