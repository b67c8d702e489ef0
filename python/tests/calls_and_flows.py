"""Two scenarios whose figures are easy to calculate: a call, and two flows."""
# A call of 100 bytes every 20 ms and five packets of 1000 bytes, over 8 Mbit/s and 10 ms: a packet of 1000
# bytes takes 1 ms, one of 100 bytes 0.1 ms.
CALL = """experiment a seed 0 budget 100
@0 pipe 1 config bw 8Mbit/s delay 10
@0 add 100 pipe 1 ip from any to any
@0 train 9 udp 10.0.0.1 1 10.0.0.2 2 1000 count 5 gap 0
@1000000 train 1 udp 10.0.0.1 1 10.0.0.2 2 100 count 3 gap 20000000
@100000000 end
"""
SLOW = CALL.replace("experiment a", "experiment b").replace("8Mbit/s", "4Mbit/s")
REFUSED = CALL.replace("@1000000 train", "@0 add 70000 allow ip from any to any\n@1000000 train").replace(
    "train 1 ", "train 9 ")
SPENT = CALL.replace("budget 100", "budget 100 steps 8")
# Two flows with segments of 1000 bytes, headers included. Flow 1 has 4 segments and ends, flow 2 has 4000 and
# does not.
FLOWS = """experiment f seed 0 budget 100
@0 pipe 1 config bw 8Mbit/s delay 10
@0 pipe 2 config delay 10
@0 add 100 pipe 1 ip from 10.0.0.0/24 to any
@0 add 200 pipe 2 ip from 10.0.1.0/24 to any
@0 flow 1 10.0.0.1 1 10.0.1.1 2 smss 960 segments 4
@0 flow 2 10.0.0.2 1 10.0.1.2 2 smss 960 segments 4000
@100000000 end
"""
