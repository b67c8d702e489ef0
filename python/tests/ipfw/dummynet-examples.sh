#!/bin/sh
# dummynet revisited / ipfw(8) EXAMPLES
ipfw add pipe 1 out
ipfw add pipe 2 in
ipfw pipe 1 config bw 1Mbit/s queue 10 delay 200ms
ipfw pipe 2 config bw 1000000bit/s queue 20KBytes delay 0.2s
ipfw add prob 0.05 deny ip from any to any
ipfw add pipe 3 ip from 192.168.2.0/24 to any out
ipfw add pipe 4 ip from any to 192.168.2.0/24 in
ipfw pipe 3 config mask src-ip 0x000000ff bw 200Kbit/s queue 20Kbytes
ipfw pipe 4 config mask dst-ip 0x000000ff bw 200Kbit/s queue 20Kbytes
ipfw add prob 0.333 pipe 5 ip from any to 10.1.0.0/16
ipfw add prob 0.5 pipe 6 ip from any to 10.1.0.0/16
ipfw add pipe 7 ip from any to 10.1.0.0/16
ipfw pipe 5 config delay 10ms
ipfw pipe 6 config delay 20ms
ipfw pipe 7 config delay 30ms
ipfw queue 1 config pipe 1 weight 1 mask all
ipfw queue 2 config pipe 1 weight 99
ipfw add queue 2 tcp from any to any 22
ipfw add queue 1 ip from any to any
ipfw sched 9 config type prio mask dst-ip 0xffffffff
ipfw pipe 9 config bw 5M/s
ipfw pipe 10 config bw 2400bit/s delay 1000 plr 1.0
ipfw pipe 11 config bw 1.5KByte/s
ipfw pipe 12 config bw 3Gbit/s queue 100kbytes gred 0.002/25000/60000/0.02
ipfw pipe 13 config bw tun0
ipfw add 60000 call 100 ip from any to any
ipfw add 60010 tee 4000 ip from any to any
ipfw add 60020 count log logamount 10 all from any to any // the end
ipfw resetlog
