#compdef tp samples
# Completes tp and samples in zsh by what `--help` prints: options after a -, or subcommands, and the names of pools and patterns.
# All else is completed as names of files.
_gerfmuod() {
    local place=2 pattern='/^Commands:/,/^$/s/^  ([a-z]+) .*/\1/p'
    local -a command=("$words[1]") offered
    while ((place < CURRENT)) && [[ $words[place] =~ '^[a-z]+$' ]]; do
        command+=("$words[place]")
        ((place++))
    done
    [[ $PREFIX == -* ]] && pattern='s/^ +(-., )?(--[a-z-]+).*/\2/p'
    if [[ $PREFIX != -* && $words[CURRENT-1] != -* ]]; then
        case "${command[2,-1]}" in
        run | pools | pool | 'draw graph') compadd -S '' -- product: wavefront: reduce: && return ;;
        patterns) offered=(${${(f)"$($command --list < /dev/null 2> /dev/null)"}%% *}) ;;
        esac
    fi
    (($#offered)) || offered=(${(f)"$($command --help < /dev/null 2> /dev/null | sed -nE "$pattern")"})
    compadd -- $offered || _files
}
compdef _gerfmuod tp samples
