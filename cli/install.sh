# Of start.sh: links to the programs, their man page and their completions.

# A link to that file under that name; anything else that is there stays.
link_to() {
    if [ -L "$2" ] && [ "$(readlink "$2")" = "$1" ]; then
        echo "$2 -> $1"
    elif [ -e "$2" ] || [ -L "$2" ]; then
        echo "$called: $2 is there, and no link to $1; it stays as it is" >&2
        return 127
    else
        ln -s "$1" "$2" && echo "$2 -> $1"
    fi
}

install_in() {
    if [ ! -d "$1" ]; then
        echo "$called: there is no folder $1" >&2
        return 127
    fi
    to=$(CDPATH='' cd -- "$1" && pwd) || return 127
    failed=0
    case ":$PATH:" in
        *":$to:"*) ;;
        *) echo "$called: $to isn't on the PATH" >&2 ;;
    esac
    for program in sj sjnet sjdraw sjwhy; do
        link_to "$here/$program" "$to/$program" || failed=127
    done
    case $to in
        */bin)
            share=${to%/bin}/share
            mkdir -p "$share/man/man1" "$share/bash-completion/completions" "$share/zsh/site-functions" || return 127
            for program in sj sjnet sjdraw sjwhy; do
                link_to "$cli/made/sj.1" "$share/man/man1/$program.1" || failed=127
                link_to "$cli/made/sj.bash" "$share/bash-completion/completions/$program" || failed=127
            done
            link_to "$cli/made/_sj" "$share/zsh/site-functions/_sj" || failed=127
            ;;
    esac
    return "$failed"
}
