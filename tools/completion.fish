# Completes tp and samples in fish by what `--help` prints: options after a -, or subcommands, and the names of pools and patterns.
# All else is completed as names of files.
function __gerfmuod
    set -l words (commandline -opc)
    set -l command $words[1]
    for word in $words[2..-1]
        string match -qr '^[a-z]+$' -- $word; or break
        set -a command $word
    end
    if string match -q -- '-*' (commandline -ct)
        string match -rg '^ +(?:-., )?(--[a-z-]+)' -- ($command --help 2> /dev/null < /dev/null)
    else if not string match -q -- '-*' $words[-1]
        switch "$command[2..-1]"
            case run pools pool 'draw graph'
                printf '%s\n' product: wavefront: reduce:
            case patterns
                string match -rg '^([a-z_]+)' -- ($command --list 2> /dev/null < /dev/null)
            case '*'
                $command --help 2> /dev/null < /dev/null | sed -nE '/^Commands:/,/^$/s/^  ([a-z]+) .*/\1/p'
        end
    end
end
for program in tp samples
    complete -c $program -f -n 'count (__gerfmuod) > /dev/null' -a '(__gerfmuod)'
end
