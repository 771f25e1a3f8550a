# Completes tp and samples in bash by what `--help` prints: options after a -, or subcommands, and the names of pools and patterns.
# All else is completed as names of files.
_gerfmuod() {
    local place=1 offered='' command=("$1") pattern='/^Commands:/,/^$/s/^  ([a-z]+) .*/\1/p'
    [[ $2 == -* ]] && pattern='s/^ +(-., )?(--[a-z-]+).*/\2/p'
    while ((place < COMP_CWORD)) && [[ ${COMP_WORDS[place]} =~ ^[a-z]+$ ]]; do
        command+=("${COMP_WORDS[place++]}")
    done
    case "$3 ${command[*]:1}" in
    [-\<\>]*) ;;
    *' run' | *' pools' | *' pool' | *' draw graph')
        [[ ${command[*]:1} != 'draw run' ]] && offered='product: wavefront: reduce:' && compopt -o nospace 2> /dev/null ;;
    *' patterns') offered=$("${command[@]}" --list < /dev/null 2> /dev/null | cut -d ' ' -f 1) ;;
    esac
    [[ $2 == -* || ! $offered ]] && offered=$("${command[@]}" --help < /dev/null 2> /dev/null | sed -nE "$pattern")
    mapfile -t COMPREPLY < <(compgen -W "$offered" -- "$2")
}
complete -o default -F _gerfmuod tp samples
