"""Sessions whose replies were calculated by hand: each line, and the lines that answer it."""
BEGIN = b"experiment a seed 1 budget 10 steps 1000"
SEND = b"inject udp 10.0.0.1 1 10.0.0.2 2 1000"
# 1 Mbit/s and 10 ms: 1000 bytes take 8 ms and 10 ms.
LINK = [(b"@0 pipe 1 config bw 1Mbit/s delay 10", [b"0 ok 0", b"#< ok"]),
        (b"@0 add 100 pipe 1 ip from any to any", [b"0 ok 1", b"#< ok"])]
FIRST = (b"@0 " + SEND, [b"0 ok 2", b"#< packet 0"])
SECOND = (b"@0 " + SEND, [b"0 ok 3", b"#< packet 1"])
TRAIN = (b"@0 train 9 udp 10.0.0.3 1 10.0.0.4 2 1000 count 1 gap 0", [b"0 ok 3", b"#< ok"])
# The output for each line. Every case was calculated by hand from docs/explanation/order.md and rules.md.
CASES = {
    "first stops 1 ns behind a delivery": [
        *LINK, FIRST, SECOND,
        (b"#> until @1000000000 first",
         [b"8000000 finish 0 1.0", b"16000000 finish 1 1.0", b"18000000 deliver 0 plain",
                                         b"#< now 18000001"])],
    "first holds as long as it is told to": [
        *LINK, FIRST, SECOND,
        (b"#> until @1000000000 first 8000001",
         [b"8000000 finish 0 1.0", b"16000000 finish 1 1.0", b"18000000 deliver 0 plain",
          b"26000000 deliver 1 plain",
          b"#< now 26000001"])],
    "a hold ends before what comes at its end": [
        *LINK, FIRST, SECOND,
        (b"#> until @1000000000 first 8000000", [b"8000000 finish 0 1.0", b"16000000 finish 1 1.0",
                                                 b"18000000 deliver 0 plain", b"#< now 26000000"])],
    "a hold goes no further than the moment": [
        *LINK, FIRST, SECOND,
        (b"#> until @20000000 first 8000001", [b"8000000 finish 0 1.0", b"16000000 finish 1 1.0",
                                               b"18000000 deliver 0 plain", b"#< now 20000000"])],
    "first doesn't stop for others, first any does": [
        *LINK, FIRST, TRAIN,
        (b"#> until @18000001 first",
         [b"8000000 finish 0 1.0", b"16000000 finish 1 1.0", b"18000000 deliver 0 plain",
                                       b"#< now 18000001"]),
        (b"#> until @20000000 first", [b"#< now 20000000"]),
        (b"#> until @1000000000 first any 5", [b"26000000 deliver 1 plain", b"#< now 26000005"]),
        (b"#> next", [b"#< next none"])],
    "all below the moment happens, and nothing at it": [
        *LINK, FIRST,
        (b"#> until @8000000", [b"#< now 8000000"]), (b"#> next", [b"#< next 8000000"]),
        (b"#> until @8000001", [b"8000000 finish 0 1.0", b"#< now 8000001"]),
        (b"@8000000 end", [b"#< fault backwards"]), (b"#> until @8000000", [b"#< fault backwards"])],
    "what isn't taken changes nothing": [
        *LINK, (b"@5 pipe 1 config bw 10Mbps", [b"#< fault badword"]),
        (b"@5 delete 100000", [b"#< fault outofrange"]),
        (b"experiment a seed 1 budget 10", [b"#< fault samename"]), (b"#> use b", [b"#< fault noexperiment"]),
        (b"#> until @5 first 0", [b"#< fault outofrange"]),
        (b"#> until @1000000000000001", [b"#< fault outofrange"]),
        (b"#> later", [b"#< fault badword"]), (b"@0 " + b"x" * 510, [b"#< fault toolong"]),
        (b"\xc3\xbc", [b"#< fault badbyte"]),
        FIRST, (b"@0 delete 7", [b"0 refused 3 13", b"#< refused 13"])],
    "only what concerns packets of one's own": [
        *LINK, (b"#> show mine", [b"#< ok"]), (b"@0 " + SEND, [b"#< packet 0"]),
        (b"@0 delete 7", [b"0 refused 3 13", b"#< refused 13"]),
        (b"@0 train 9 udp 10.0.0.3 1 10.0.0.4 2 1000 count 1 gap 0", [b"#< ok"]),
        (b"#> until @20000000", [b"18000000 deliver 0 plain", b"#< now 20000000"]),
        (b"#> show all", [b"#< ok"]),
        (b"#> until @30000000", [b"26000000 deliver 1 plain", b"#< now 30000000"])],
    "a packet that is dropped as it comes": [
        (b"@0 " + SEND, [b"0 ok 0", b"0 drop 0 plain denied", b"#< packet 0"]),
        (b"@3 end", [b"3 ok 1", b"counters 1 0 0 1 0 0 0 0 0 0 0", b"#< over 3"]),
        (b"@3 end", [b"#< fault afterend"]), (b"#> until @9", [b"#< over 3"]), (b"#> next", [b"#< over 3"])],
    "answers say when the next event is due": [
        *LINK, (b"#> next on", [b"#< ok next none"]),
        (b"@0 " + SEND, [b"0 ok 2", b"#< packet 0 next 8000000"]),
        (b"@0 " + SEND, [b"0 ok 3", b"#< packet 1 next 8000000"]), (b"#> next", [b"#< next 8000000"]),
        (b"#> until @8000001", [b"8000000 finish 0 1.0", b"#< now 8000001 next 16000000"]),
        (b"@8000001 delete 7", [b"8000001 refused 4 13", b"#< refused 13 next 16000000"]),
        (b"@16000001 delete 100", [b"16000000 finish 1 1.0", b"16000001 ok 5", b"#< ok next 18000000"]),
        (b"#> until @1000000000 first", [b"18000000 deliver 0 plain", b"#< now 18000001 next 26000000"]),
        (b"#> until @8000000", [b"#< fault backwards"]), (b"#> next off", [b"#< ok"]),
        (b"#> until @1000000000 first", [b"26000000 deliver 1 plain", b"#< now 26000001"]),
        (b"#> next on", [b"#< ok next none"]),
        (b"@26000001 end", [b"26000001 ok 6", b"counters 2 2 0 0 0 0 0 0 0 0 0", b"#< over 26000001"]),
        (b"#> show all", [b"#< ok over 26000001"]), (b"#> next onn", [b"#< fault badword"])],
    "of each experiment by itself": [
        *LINK, (b"#> next on", [b"#< ok next none"]), FIRST[:1] + ([b"0 ok 2", b"#< packet 0 next 8000000"],),
        (b"experiment b seed 1 budget 1", [b"experiment b", b"#< ok"]), (b"#> until @5", [b"#< now 5"]),
        (b"#> use a", [b"#: a", b"#< ok next 8000000"]), (b"#> use b", [b"#: b", b"#< ok"])],
    "tracing is for experiments that begin later": [
        (b"#> trace on", [b"#< ok"]), (b"@0 " + SEND, [b"0 ok 0", b"0 drop 0 plain denied", b"#< packet 0"]),
        (b"experiment b seed 1 budget 1", [b"experiment b", b"#< ok"]), (b"#> trace off", [b"#< ok"]),
        (b"@0 trace 0", [b"0 ok 0", b"#< ok"]),
        (b"@0 " + SEND, [b"0 ok 1", b"0 make 0 plain " + SEND.removeprefix(b"inject "),
                         b"0 drop 0 plain denied", b"#< packet 0"]),
        (b"experiment c seed 1 budget 1", [b"experiment c", b"#< ok"]), (b"#> next on", [b"#< ok next none"]),
        (b"#> trace off", [b"#< ok next none"]),
        (b"@0 " + SEND, [b"0 ok 0", b"0 drop 0 plain denied", b"#< packet 0 next none"]),
        (b"#> trace", [b"#< fault badword"]), (b"#> trace onn", [b"#< fault badword"]),
        (b"#> trace on off", [b"#< fault badword"])],
    "two experiments by turns": [
        (b"@7 add 100 allow ip from any to any", [b"7 ok 0", b"#< ok"]),
        (b"experiment b seed 1 budget 1", [b"experiment b", b"#< ok"]),
        (b"@0 end", [b"0 ok 0", b"counters" + 11 * b" 0", b"#< over 0"]),
        (b"#> use a", [b"#: a", b"#< ok"]), (b"@6 end", [b"#< fault backwards"]),
        (b"@7 " + SEND, [b"7 ok 1", b"#< packet 0"]),
        (b"#> until @9 first", [b"8 deliver 0 plain", b"#< now 9"])],
}
# The third step is the delivery at 1 ns; a command at that time would precede it.
SPENT = [(b"@0 add 100 allow ip from any to any", [b"0 ok 0", b"#< ok"]),
         (b"@0 " + SEND, [b"0 ok 1", b"#< packet 0"]),
         (b"#> until @9 first",
          [b"1 deliver 0 plain", b"1 spent", b"counters 1 1 0 0 0 0 0 0 0 0 0", b"#< over 2"]),
         (b"@1 end", [b"#< fault backwards"]), (b"@2 end", [b"#< over 2"])]
