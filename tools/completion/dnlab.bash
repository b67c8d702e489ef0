# Completion of dnlab's commands and options for bash. tools/install installs it. To try it: source tools/completion/dnlab.bash
_dnlab() {
  local now=${COMP_WORDS[COMP_CWORD]} before="" command="" word
  [ "$COMP_CWORD" -gt 0 ] && before=${COMP_WORDS[COMP_CWORD - 1]}
  for word in "${COMP_WORDS[@]:1:COMP_CWORD-1}"; do
    case $word in
      alone | run | check | live | help)
        command=$word
        break
        ;;
    esac
  done
  local words=""
  case $command:$before in
    run:--workers) words="1 2 4 8 16" ;;
    run:--moves) words="0 1 64 1000" ;;
    run:--format | alone:--format) words="text npy" ;;
    run:--max-* | alone:--max-* | live:--max-*) ;;
    run:*) words="--workers --moves --format --max-steps --max-output --progress --explain --strict --trace --help" ;;
    alone:*) words="--format --max-steps --max-output --progress --explain --strict --trace --help" ;;
    check:*) words="--explain --json --strict --help" ;;
    live:*) words="--explain --max-steps --help" ;;
    help:help) words="alone run check live help" ;;
    help:*) ;;
    *) words="alone run check live help --help --version" ;;
  esac
  COMPREPLY=()
  # In commands that read a scenario, an argument that is not an option is a file, which bash completes itself.
  case $command:$before:$now in
    alone:--*:* | run:--*:* | *:*:-*) ;;
    alone:* | run:* | check:*) return ;;
  esac
  mapfile -t COMPREPLY < <(compgen -W "$words" -- "$now")
}
complete -o default -F _dnlab dnlab
