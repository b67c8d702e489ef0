#!/bin/sh
# Prints what a program in a guest can see of the machine and of randomness.
date; hostname; uname -a; nproc; id; env; cat /proc/self/limits
cat /proc/cpuinfo /proc/loadavg /proc/uptime /proc/meminfo /proc/mounts /proc/cmdline /proc/stat
cat /etc/resolv.conf /etc/hostname /etc/machine-id /etc/hosts
cat /proc/sys/kernel/random/boot_id /proc/sys/kernel/random/uuid /proc/self/maps
ls -la --time-style=full-iso / /dev /run/dnlab /run/dnlab/hosts
echo one > made; mkdir folder; sleep 0.5; echo two >> made; ln -s made link
touch folder/b folder/a folder/c; mv folder/c folder/0; ls -f folder
stat -c '%n %i %d %h %X %Y %Z %s %b %U %a' /etc/passwd /usr/bin/env /usr . made folder link folder/*
df / . /run
python3 -c 'import os, random; print(os.urandom(8).hex(), random.random(), hash("a"), id(os))'
mktemp -u; ps aux; ip address; dmesg
ping -c 3 -i 0.2 10.0.1.1
