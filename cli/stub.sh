#!/bin/sh
# Stands in for a program in test.sh: says how it was called, and answers by its words and what it reads.
# It is called NAME WORDS..; a text with the word `bad` or `slip` is refused, and one with `ring` is no forest.
words=$*
case $words in *"make "* | *"big "*) text= ;; *) text=$(cat) ;; esac
case " $words " in
    *" check "* | " sjwhy "*)
        case $text in
            *bad*)
                printf 'check C5 at 8\n'
                case " $words" in " sjwhy"*)
                    printf 'not there: no live end, or no variable, has that name\n\n  8 | a bad end\n    |   ^^^\n\n'
                    printf 'there: no variable is "known" here\nmend: use no end\n' ;;
                esac
                exit 5
                ;;
        esac
        case $text in
            *slip*)
                printf 'syntax P1 at 2:3\nnot due: no file goes on so there\n\n  2 | a sned\n    |   ^^^^\n\n'
                printf 'there: `sned` stands there\nwanted one of: } send\ndid you mean `send`?\nmend: put it right\n'
                exit 4
                ;;
        esac
        printf 'accepted parties 2 sessions 1\n'
        case " $words" in " sjwhy"*) printf '\nends done: each party comes to its end\n' ;; esac
        case $text in *turns*) printf '\nwarning line 3: cut\nwarning line 14: a: b\n' ;; esac
        case $words in *--colour*) echo coloured ;; *--svg*) echo drawn ;; esac
        ;;
    *" forest "*)
        case $text in
            *bad*) printf 'check C5 at 8\n'; exit 5 ;;
            *ring*) printf 'forest no a b\n' ;;
            *opens*) printf 'forest opens 3\n' ;;
            *) printf 'forest yes\n' ;;
        esac
        ;;
    *) printf '%s\n%s\n' "$words" "$text" ;;
esac
case $text in *blocks*) exit 6 ;; esac
exit 0
