# Completion of the commands of dnlab's Python package for fish. Each command itself prints its options, and their values.
# tools/install installs it under the name of each command. To try it: source tools/completion/dnlab-tools.fish
function __dnlab_tools
    set -l words (commandline -opc)
    set -l found
    if string match -q -- '-*' (commandline -ct)
        set found ($words[1] --_complete= 2>/dev/null)
    else if string match -q -- '--*' $words[-1]
        set found ($words[1] --_complete=$words[-1] 2>/dev/null)
    end
    if test -n "$found"
        printf '%s\n' $found
    else
        __fish_complete_path (commandline -ct)
    end
end
for tool in summary plot spread sweep compare expect view pcap from-ipfw to-ipfw to-tc replay rate-trace hosts
    complete -c dnlab-$tool -f -a '(__dnlab_tools)'
end
