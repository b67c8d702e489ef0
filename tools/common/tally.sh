# shellcheck shell=bash
# Counts passed and failed trials, for scripts that test something. tools/common/tally.py is the counterpart in Python.
passed=0
failed=0
skipped=0

# Counts a trial, and prints a failed one with the last lines of a file: NAME STATUS [FILE]. The file is an argument of its own,
# because "$(cat FILE)" in the name would set $? to the status of cat.
count() {
  if [ "$2" -eq 0 ]; then
    passed=$((passed + 1))
  else
    failed=$((failed + 1))
    echo "failed: $1${3:+: $(tail -n 5 "$3")}"
  fi
}

# Counts a trial that passes if two values are equal: NAME GOT WANTED
same() {
  [ "$2" = "$3" ]
  count "$1: '$2', wanted '$3'" $?
}

# Prints the closing line. Returns the status for the script: 1 if a trial failed or none ran, otherwise 0.
close() {
  if [ "$skipped" -gt 0 ]; then
    echo "$passed passed, $failed failed, $skipped skipped"
  else
    echo "$passed passed, $failed failed"
  fi
  [ "$failed" -eq 0 ] && [ "$passed" -gt 0 ]
}

# For a script that takes no words but --help: prints standard input as its help and exits, or refuses words: NAME WORDS..
only_help() {
  local text
  text=$(cat)
  [ "${2-}" != --help ] || { echo "$text" && exit 0; }
  [ $# -eq 1 ] || { echo "$1: there are no words but --help" >&2 && exit 2; }
}
