# shellcheck shell=bash
# Finds the program that a script runs. tools/common/program.py is the counterpart in Python.

# Prints the path of a program: ROOT PROGRAM. For the repository's script ./dnlab, it prints the path of the program that the
# script starts, which is the proved program or a checked build.
program_of() {
  if [ "$2" -ef "$1/dnlab" ]; then
    DNLAB='' "$1/dnlab" program
  else
    echo "$2"
  fi
}

# Puts Debian's Python first on the PATH if the first Python there lacks NumPy and Debian's has it.
choose_python() {
  if ! python3 -c 'import numpy' 2>/dev/null && /usr/bin/python3 -c 'import numpy' 2>/dev/null; then
    export PATH=/usr/bin:$PATH
  fi
}

# Tries what is installed, far from the repository, for somebody who has nothing else; it counts by tally.sh. The names of
# what is tried begin with NAME; DNLAB is the program that is installed: NAME FOLDER [ENVIRONMENT..]
serves() {
  local name=$1 root=$PWD example=$PWD/examples/links/one_packet room words
  room=$(mktemp -d) || return
  words=(env -i "HOME=$room" "PATH=$2:/usr/bin:/bin" "${@:3}")
  (cd "$room" && "${words[@]}" dnlab alone <"$example/scenario.txt" | cmp -s - "$example/expected.txt")
  count "$name: the first example" $?
  (cd "$room" && "${words[@]}" dnlab alone "$example/scenario.txt" | cmp -s - "$example/expected.txt")
  count "$name: the first example, by its name" $?
  same "$name: faults as JSON" "$("${words[@]}" dnlab check --json "$example/scenario.txt")" "[]"
  same "$name: the version" "$("${words[@]}" dnlab --version)" "$("$DNLAB" --version)"
  same "$name: the tools' version" "$("${words[@]}" dnlab-summary --version)" \
    "dnlab-summary $("$DNLAB" --version | cut -d' ' -f2)"
  # One packet of 1000 bytes, 8 ms in service at 1 Mbit/s and 10 ms under way.
  (cd "$room" && "${words[@]}" dnlab alone --trace <"$example/scenario.txt" >report.txt)
  same "$name: a summary" "$(cd "$room" && "${words[@]}" dnlab-summary report.txt "$example/scenario.txt" |
    awk '$2 == "all" { print $3, $4, $13 }')" "1 1 18.000"
  # The call's first packet: 100 bytes at 10 Mbit/s are 80 us, and the delay is 20 ms.
  same "$name: a sweep" "$(cd "$room" && "${words[@]}" dnlab-sweep "$root/python/examples/bottleneck.tmpl" --set queue=10 \
    --kept kept --of 'train 9' --stat delay.min --csv - 2>/dev/null | tail -n 1 | cut -d, -f1-6)" \
    "10,train 9,delay.min,ns,1,20080000.0"
  rm -rf "$room"
}
