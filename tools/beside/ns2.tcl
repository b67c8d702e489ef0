# A drop-tail pipe in the direction of the data and one back, with Agent/TCP/Reno of ns-2.35. tools/beside/ns2 calls it with
# arguments key=value. Its queue-limit is one more than the pipe's, because ns-2 also counts the packet in service.
array set o {n 2000 flows 1 at2 1.0 delay 10 ssthresh 44 dead "" end 60 out -}
foreach word $argv { regexp {^([^=]+)=(.*)$} $word all key value; set o($key) $value }
Agent/TCP set syn_ false
Agent/TCP set delay_growth_ false
Agent/TCP set useHeaders_ false
Agent/TCP set packetSize_ 1500
Agent/TCP set window_ 44
Agent/TCP set windowInit_ 3
Agent/TCP set minrto_ 1.0
Agent/TCP set maxrto_ 60
Agent/TCP set rtxcur_init_ 1.0
Agent/TCP set tcpTick_ 0.001
Agent/TCP set singledup_ 0
Agent/TCP set bugFix_ false
Agent/TCP set timestamps_ false
remove-all-packet-headers
add-packet-header IP TCP Flags
set ns [new Simulator]
set f [open $o(out) w]
set a [$ns node]
set b [$ns node]
$ns simplex-link $a $b 10Mb $o(delay)ms DropTail
$ns simplex-link $b $a 100Gb $o(delay)ms DropTail
$ns queue-limit $a $b 21
$ns queue-limit $b $a 100000
if {$o(dead) ne ""} {
  set lost [new ErrorModel]
  $lost unit pkt
  $lost set rate_ 0
  $lost drop-target [new Agent/Null]
  $ns lossmodel $lost $a $b
  foreach time [split $o(dead) ,] {
    set ends [split $time :]
    $ns at [lindex $ends 0] "$lost set rate_ 1.0"
    $ns at [lindex $ends 1] "$lost set rate_ 0"
  }
}
for {set i 1} {$i <= $o(flows)} {incr i} {
  set t [new Agent/TCP/Reno]
  set s [new Agent/TCPSink]
  $t set fid_ $i
  $ns at 0.0 "$t set ssthresh_ $o(ssthresh)"
  $ns attach-agent $a $t
  $ns attach-agent $b $s
  $ns connect $t $s
  $t trace cwnd_
  $t trace ssthresh_
  $t trace dupacks_
  $t trace backoff_
  $t attach $f
  set p [new Application/FTP]
  $p attach-agent $t
  if {$i == 1} { $ns at 0.0 "$p produce $o(n)" } else { $ns at $o(at2) "$p produce $o(n)" }
}
$ns trace-queue $a $b $f
$ns trace-queue $b $a $f
$ns at $o(end) "close $f; exit 0"
$ns run
