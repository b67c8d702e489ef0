# Completion of the commands of dnlab's Python package for bash. Each command itself prints its options, and their values.
# tools/install installs it. To try it: source tools/completion/dnlab-tools.bash
_dnlab_tools() {
  local now=${COMP_WORDS[COMP_CWORD]} option=${COMP_WORDS[COMP_CWORD - 1]}
  [[ $now != -* ]] || option=""
  COMPREPLY=()
  # Anything else is a file name, which bash completes itself.
  if [[ $now == -* || $option == --* ]]; then
    mapfile -t COMPREPLY < <(compgen -W "$("${COMP_WORDS[0]}" "--_complete=$option" 2>/dev/null | cut -f1)" -- "$now")
  fi
}
complete -o default -F _dnlab_tools dnlab-summary dnlab-plot dnlab-spread dnlab-sweep dnlab-compare dnlab-expect \
  dnlab-view dnlab-pcap dnlab-from-ipfw dnlab-to-ipfw dnlab-to-tc dnlab-replay dnlab-rate-trace dnlab-hosts
