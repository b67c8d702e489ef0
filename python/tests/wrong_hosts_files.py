"""A correct hosts file, and wrong ones, each with the line of its fault and words of the message."""
BASE = """general: {stop_time: 15s, seed: 7}
network: |
  @0 pipe 1 config bw 10Mbit/s delay 20
  @5 add 100 pipe 1 ip from any to any
hosts:
  server:
    ip_addr: 10.0.1.1
    processes:
    - path: iperf3
      args: -s -1
  client:
    ip_addr: 10.0.0.1
    sysctl: {net.ipv4.tcp_congestion_control: bbr}
    setup: [tc qdisc replace dev eth0 root fq]
    processes:
    - path: /usr/bin/curl
      args: -H 'a b' "http://10.0.1.1/"
      environment: {LANG: C}
      start_time: 1s
      shutdown_time: 10s
      shutdown_signal: SIGINT
      expected_final_state: {exited: 3}
      user: nobody
emulation:
  syscall_cost: 2us
  clock_read: 1ns
  reads: 4
  polls: 2
  start_date: 2027-03-01
  memory: 1 GiB
  limit: 2 min
  jitter: 10ms
files:
  site/a.conf: |
    listen 80
"""
LINES = BASE.split("\n")
# The line of BASE to replace, its replacement, the line of the fault, and words of the message.
YAML = [
    (1, "general: {stop_time: 15s", 2, "begun on line 1"),
    (1, "general: *g", 1, "undefined alias 'g'"),
    (1, "\tgeneral: {}", 1, "expected spaces, not tabs"),
    (1, "general: {stop_time: 15s}\n---", 3, "a second document begins"),
    (1, "general: {stop_time: 15s, stop_time: 16s}", 1, "'stop_time' is there twice, first on line 1"),
    (1, "general: {<<: 3, stop_time: 15s}", 1, "expected <<: *NAME"),
    (1, "? [general]\n: 15s", 1, "a key: it is a list"),
    (1, "general: {stop_time: 15s, ~: 3}", 1, "a key: nothing is written"),
    (11, "  server:", 11, "'server' is there twice, first on line 6"),
]
ROOT = [
    (1, "", 2, "the key 'general' is missing"),
    (1, "generl: {stop_time: 15s}", 1, "no key 'generl' (did you mean general?)"),
    (1, "general: {stop_time: 15s}\nexperimental: {}", 2, "'experimental' is a key of Shadow's files"),
    (1, "general: ~", 1, "nothing is written; expected keys"),
    (1, "general: 15s", 1, "it is a text; expected keys"),
    (33, "hosts:", 33, "'hosts' is there twice, first on line 5"),
]
GENERAL = [
    (1, "general: {seed: 7}", 1, "the key 'stop_time' is missing"),
    (1, "general: {stop_tme: 15s}", 1, "no key 'stop_tme' (did you mean stop_time?)"),
    (1, "general: {stop_time: 0s}", 1, "'0s' is no time at all"),
    (1, "general: {stop_time: fifteen}", 1, "'fifteen' is not a time"),
    (1, "general: {stop_time: 15 parsecs}", 1, "'parsecs' is not a unit of time"),
    (1, "general: {stop_time: 0.5ns}", 1, "not a whole number of nanoseconds"),
    (1, "general: {stop_time: 300h}", 1, "'300h' is too long; expected at most 1000000s"),
    (1, "general: {stop_time: }", 1, "nothing is written; expected a value"),
    (1, "general: {stop_time: [15s]}", 1, "it is a list; expected a value"),
    (1, "general:\n  stop_time: 15s\n  seed: -1", 3, "'-1' is not a whole number from 0"),
    (1, "general:\n  stop_time: 15s\n  seed: 18446744073709551616", 3,
     "not a whole number from 0 to 18446744073709551615"),
    (1, "general:\n  stop_time: 15s\n  steps: 0", 3, "'0' is not a whole number from 1 to 10000000"),
    (1, "general:\n  stop_time: 15s\n  steps: 10000001", 3, "not a whole number from 1 to 10000000"),
    (1, "general:\n  stop_time: 15s\n  parallelism: 4", 3, "'parallelism' is a key of Shadow's files"),
    (1, "general:\n  stop_time: 15s\n  bootstrap_end_time: 1s", 3, "by lines of `network`"),
    (1, "general:\n  stop_time: 15s\n  model_unblocked_syscall_latency: true", 3,
     "write syscall_cost below `emulation`"),
    (1, "general:\n  stop_time: 15s\n  template_directory: not-there", 3, "'not-there' is not a folder"),
]
NETWORK = [
    (2, "network:\n  graph: {type: 1_gbit_switch}\nx-old: |", 3, "expected lines of a scenario"),
    (2, "network: >", 2, "it is a text; expected a block of lines"),
    (2, "network: |\n  # nothing\nx-old: |", 2, "it has no lines"),
    (3, "  pipe 1 config bw 10Mbit/s", 3, "'pipe' is not a moment"),
    (3, "  @00 pipe 1 config bw 10Mbit/s", 3, "'@00' is not a moment"),
    (3, "  @6 pipe 1 config bw 10Mbit/s", 4, "@5 is before @6 of line 3"),
    (4, "  @15000000001 add 100 pipe 1 ip from any to any", 4,
     "@15000000001 is after stop_time (@15000000000)"),
    (4, "  @5 end", 4, "no `end` here: general.stop_time ends the run"),
    (4, "  @5 inject udp 10.0.0.1 1 10.0.1.1 2 100", 4, "no `inject` here: programs send the packets"),
    (3, "  @0 pipe 1 config bw 10Mbit/s dely 20", 3, "did you mean `delay`?"),
    (3, "  @0 pipe 1 config bw 10Mbps", 3, "badword: "),
    (3, "  @0", 3, "badword: "),
    (4, "\n  # a comment\n\n  @5 add 100 pip 1 ip from any to any", 7, "badword: "),
    (4, "  @5 delete 300", 4, "no rule has this number"),
    (4, "  @5 add 100 pipe 1 ip from any to any \u00fc", 4, "the character '\u00fc' is not ASCII"),
    (4, f"  @5 add 100 pipe 1 ip from any to any{'x' * 500}", 4, "toolong: "),
]
HOSTS = [
    (5, "hosts: {}\nx-old:", 5, "no host has a process"),
    (6, "  Server:", 6, "'Server' is not a host's name"),
    (6, "  localhost:", 6, "'localhost' is not a host's name"),
    (6, f"  {'a' * 64}:", 6, "is not a host's name"),
    (6, "  empty:\n  server:", 6, "nothing is written; expected keys"),
    (6, "  other: {processes: []}\n  server:", 6, "the key 'ip_addr' is missing"),
    (7, "    ip_adr: 10.0.1.1", 7, "no key 'ip_adr' (did you mean ip_addr?)"),
    (7, "    ip_addr: 10.0.0.1", 12, "10.0.0.1 is the address of the host on line 6 too"),
    (7, "    ip_addr: 10.0.1.256", 7, "'10.0.1.256' is not an IPv4 address"),
    (7, "    ip_addr: fd00::1", 7, "'fd00::1' is not an IPv4 address"),
    (7, "    ip_addr: 127.0.0.1", 7, "127.0.0.1 cannot be a host's address"),
    (7, "    ip_addr: 224.0.0.1", 7, "224.0.0.1 cannot be a host's address"),
    (7, "    ip_addr:", 7, "nothing is written; expected a value"),
    (7, "    ip_addr: 10.0.1.1\n    network_node_id: 0", 8, "'network_node_id' is a key of Shadow's files"),
    (13, "    sysctl: [net.ipv4.tcp_sack]", 13, "it is a list; expected keys"),
    (13, "    sysctl: {tcp_sack: 0}", 13, "'tcp_sack' is not a name of a sysctl"),
    (13, '    sysctl: {net.ipv4.tcp_rmem: "1\\n2"}', 13, "it has several lines"),
    (13, "    sysctl:\n      net.ipv4.tcp_sack: 0\n      net.ipv4.tcp_sack: 1", 15,
     "is there twice, first on line 14"),
    (14, "    setup: tc qdisc replace dev eth0 root fq", 14, "it is a text; expected a list"),
    (14, "    setup: ['']", 14, "'' is not one command line"),
    (14, '    setup: ["a\\nb"]', 14, "is not one command line"),
]
PROCESSES = [
    (8, "    processes: iperf3\n    x:", 9, "no key 'x'"),
    (15, "    processes:\n    - curl", 16, "it is a text; expected keys"),
    (9, "    - user: nobody", 9, "the key 'path' is missing"),
    (9, "    - path:", 9, "nothing is written; expected a value"),
    (9, "    - path: /usr/bin/", 9, "'/usr/bin/' is not a program"),
    (9, '    - path: "a\\0b"', 9, "a byte 0"),
    (10, "      args: -s 'a", 10, "cannot be split into words (no closing quotation)"),
    (10, "      args: {s: 1}", 10, "it has keys; expected a value"),
    (10, "      quantity: 2", 10, "write a process for each"),
    (18, "      environment: LANG=C", 18, "it is a text; expected keys"),
    (18, "      environment: {1A: C}", 18, "'1A' is not a name of a variable"),
    (18, "      environment: {A: C, A: D}", 18, "'A' is there twice, first on line 18"),
    (19, "      start_time: 15s", 19, "with jitter up to 15010000000"),
    (19, "      start_time: 16s", 19, "after stop_time (15000000000 ns)"),
    (19, "      starttime: 1s", 19, "write start_time"),
    (20, "      shutdown_time: 1s", 20, "is not between the start (1010000000 ns) and stop_time"),
    (20, "      shutdown_time: 16s", 20, "16000000000 ns is not between"),
    (20, "", 21, "shutdown_signal without shutdown_time"),
    (21, "      shutdown_signal: SIGFOO", 21, "'SIGFOO' is not a signal"),
    (21, "      shutdown_signal: 0", 21, "'0' is not a signal"),
    (21, "      shutdown_signal: 65", 21, "'65' is not a signal"),
    (22, "      expected_final_state: exited", 22, "'exited' is not a final state"),
    (22, "      expected_final_state:", 22, "it is not one final state"),
    (22, "      expected_final_state: {exited: 0, signaled: 9}", 22, "it is not one final state"),
    (22, "      expected_final_state: {exited: 256}", 22, "'256' is not a whole number from 0 to 255"),
    (22, "      expected_final_state: {signaled: SIGNONE}", 22, "'SIGNONE' is not a signal"),
    (22, "      expected_final_state: {signalled: SIGTERM}", 22,
     "no key 'signalled' (did you mean signaled?)"),
    (23, "      user: 'a b'", 23, "'a b' is not a user's name"),
]
EMULATION = [
    (25, "  syscall_costs: 1us", 25, "no key 'syscall_costs' (did you mean syscall_cost?)"),
    (25, "  syscall_cost: cheap", 25, "'cheap' is not a time"),
    (26, "  clock_read: 0.1ns", 26, "not a whole number of nanoseconds"),
    (27, "  reads: 0", 27, "'0' is not a whole number from 1 to 1000"),
    (28, "  polls: 21", 28, "'21' is not a whole number from 0 to 20"),
    (29, "  start_date: tomorrow", 29, "'tomorrow' is not a date"),
    (29, "  start_date: 1970-01-01", 29, "expected a year from 1971 to 2200"),
    (30, "  memory: 512", 30, "'512' is not an amount of memory"),
    (30, "  memory: 32 MiB", 30, "expected 64 MiB to 64 GiB"),
    (31, "  limit: 0s", 31, "'0s' is no time at all"),
    (32, "  jitter: 1 %", 32, "'1 %' is not a time"),
    (32, "  jitter: 20s", 9, "with jitter up to 20000000000"),
    (32, "  rootfs: not/there", 32, "'not/there' is not a folder"),
]
FILES = [
    (34, "  /etc/passwd: |", 34, "'/etc/passwd' is not a name within the output folder"),
    (34, "  ../a.conf: |", 34, "'../a.conf' is not a name within the output folder"),
    (34, "  guest/plan: |", 34, "'guest/plan' is a file that a run writes itself"),
    (34, "  summary.json: |", 34, "'summary.json' is a file that a run writes itself"),
    (34, "  a.conf: [a]\nx-old: |", 34, "it is a list; expected a value"),
]
WRONG = [*YAML, *ROOT, *GENERAL, *NETWORK, *HOSTS, *PROCESSES, *EMULATION, *FILES]
WHOLE = [
    (b"", 1, "the file is empty"),
    (b"# nothing\n", 1, "the file is empty"),
    (b"general: \xff\n", 1, "the byte 0xff is not UTF-8"),
    (b"general: 1\nnetwork: \x07\n", 2, "the character #x0007 is not allowed"),
    (b"just words\n", 1, "it is a text; expected keys"),
    (b"- 1\n", 1, "it is a list; expected keys"),
    (b"%TAG\n", 1, "expected"),
    (b"general: " + b"[" * 3000, 1, "values are nested too deeply"),
]
