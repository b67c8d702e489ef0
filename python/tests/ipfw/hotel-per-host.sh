#!/bin/sh
# per-guest limits in a hotel / dormitory, tables choose the plan
fwcmd="/sbin/ipfw -q"
lan="igb1"
net="10.20.0.0/16"

${fwcmd} -f flush
${fwcmd} table 1 create type addr
${fwcmd} table 1 add 10.20.1.0/24 1
${fwcmd} table 1 add 10.20.2.0/24 3
${fwcmd} table 22 add 10.20.0.10
${fwcmd} table 22 add 10.20.0.11

# basic plan: 2 Mbit down, 512 Kbit up, each host gets its own
${fwcmd} pipe 1 config bw 512Kbit/s queue 20 mask src-ip 0xffffffff
${fwcmd} pipe 2 config bw 2Mbit/s queue 20 mask dst-ip 0xffffffff
# premium
${fwcmd} pipe 3 config bw 5Mbit/s queue 50 mask src-ip 0xffffffff buckets 1024
${fwcmd} pipe 4 config bw 20Mbit/s queue 50 mask dst-ip 0xffffffff buckets 1024

${fwcmd} add allow ip from any to any via lo0
${fwcmd} add allow ip from "table(22)" to any
${fwcmd} add allow ip from any to "table(22)"
${fwcmd} add pipe tablearg ip from "table(1)" to any in recv ${lan}
${fwcmd} add pipe 2 ip from any to 10.20.1.0/24 out xmit ${lan}
${fwcmd} add pipe 4 ip from any to 10.20.2.0/24 out xmit ${lan}
${fwcmd} add deny tcp from ${net} to any dst-port 25
${fwcmd} add deny udp from ${net} to any dst-port 135-139,445
# shellcheck disable=SC1083  # the brackets are words of ipfw
${fwcmd} add deny ip from ${net} to { 192.168.0.0/16 or 172.16.0.0/12 }
${fwcmd} add allow ip from any to any
