# Completions of sj, sjnet, sjdraw and sjwhy for bash. cli/make.sh writes this file, from cli/words.txt.
_sj() {
    local program=${COMP_WORDS[0]##*/} word=${COMP_WORDS[COMP_CWORD]} before=${COMP_WORDS[COMP_CWORD - 1]}
    local common="--help --version --build --install -h" commands="check show forest sim run replay talk make big" command='' words='' files='' i
    for ((i = 1; i < COMP_CWORD; i++)); do
        case " $commands help " in *" ${COMP_WORDS[i]} "*) command=${COMP_WORDS[i]}; break ;; esac
    done
    [ "$program" != sjnet ] || program=sj
    [ "$program" != sjdraw ] || command=''
    [ "$program" != sjwhy ] || command=''
    COMPREPLY=()
    if [ "$before" = --install ]; then
        while IFS= read -r i; do COMPREPLY+=("$i"); done < <(compgen -d -- "$word")
        return
    fi
    case "$program${command:+ $command}" in
        'sj') words="$commands help $common" ;;
        'sj help') words=$commands ;;
        'sj check') words="--json $common" files=1 ;;
        'sj show') words="$common" files=1 ;;
        'sj forest') words="--json --strict $common" files=1 ;;
        'sj sim') words="$common" files=1 ;;
        'sj run') words="--log --looks --workers --forward $common" files=1 ;;
        'sj replay') words="--log $common" files=1 ;;
        'sj talk') words="$common" files=1 ;;
        'sj make') words="$common" ;;
        'sj big') words="$common" ;;
        'sjdraw') words="$common" files=1 ;;
        'sjwhy') words="--svg --colour --json $common" files=1 ;;
    esac
    while IFS= read -r i; do COMPREPLY+=("$i"); done < <(
        compgen -W "$words" -- "$word"; [ -z "$files" ] || compgen -f -- "$word")
}
complete -o filenames -F _sj sj sjnet sjdraw sjwhy
