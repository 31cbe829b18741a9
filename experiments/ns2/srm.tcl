# Runs one scenario with the SRM agent of ns-2, one tick being one second of ns-2's time.
#
#   ns srm.tcl FILE
#
# FILE has a line for each part of the scenario:
#
#   constants C1 C2 D1 D2      plain numbers
#   seed N                     of ns-2's random numbers
#   end TICK                   events before it are handled
#   link NODE NODE DELAY       numbered from 0 in their order
#   member NODE                numbered from 0; member 0 is the source
#   draws COUNT TICKS          that many draws by member 0, from tick 0, so many ticks apart
#   session TICK               a session message by member 0
#   drop LINK NUMBER           that link drops that draw; one for a link
#   cycle LINK K               that link drops draws 0, K, 2 K and so on
#   loss LINK RATE             that link loses packets at random, in both directions: ns-2's ErrorModel
#   rule NAME                  one of srm_lab's rules in place of ns-2's: see below
#   adaptive G                 Agent/SRM/Adaptive, for a group of G members, with what adaptive.tcl adds to it
#   limits C1 C1 C2 C2 ..      of it, least and most of each constant, in place of those for a group of G
#   words MEMBER WORD ..       the member's random words, one for each timer, in place of ns-2's random numbers
#
# Distances are given (the sum of the delays), and no session message is sent but those listed. Printed are
# `event TIME MEMBER ask|answer NUMBER` for each request and repair that is sent, `lost MEMBER NUMBER TIME` and
# `recovered MEMBER NUMBER TIME`, and last `cost SECONDS`, the processor time of the run without its setup. With
# adaptive timers also `constants TIME MEMBER C1 C2 D1 D2` where they may have changed.

set links {}; set hosts {}; set sessions {}; set drops {}; set losses {}; set seed 1; set adaptive 0; set limits {}
foreach rule {
    arrivals-first hold-off-by-source back-off-at-once hold-off-when-held hold-off-extended ten-doublings
    averaged-once half-step-first duplicates-at-rest duplicates-ignored every-recovery present-constants
    sent-first-alone six-triplings whole-thousandths
} {
    set rules($rule) 0
}
set input [open [lindex $argv 0]]
while {[gets $input words] >= 0} {
    switch [lindex $words 0] {
        constants { lassign $words - c1 c2 d1 d2 }
        seed { set seed [lindex $words 1] }
        end { set end [lindex $words 1] }
        link { lappend links [lrange $words 1 3] }
        member { lappend hosts [lindex $words 1] }
        draws { lassign $words - draws every }
        session { lappend sessions [lindex $words 1] }
        drop { lappend drops [list [lindex $words 1] 1000000000 [lindex $words 2]] }
        cycle { lappend drops [list [lindex $words 1] [lindex $words 2] 0] }
        loss { lappend losses [lrange $words 1 2] }
        rule { set rules([lindex $words 1]) 1 }
        adaptive { set adaptive [lindex $words 1] }
        limits { set limits [lrange $words 1 end] }
        words { set given([lindex $words 1]) [lrange $words 2 end] }
        default { error "what is $words?" }
    }
}
close $input
set start 8.0                              ;# ns-2's time of tick 0: before it the members join
set source [lindex $hosts 0]
set nodes [expr {[llength $links] + 1}]

# ---- distances and the side of each link that is away from the source --------
proc walk {root} {
    global links nodes
    for {set v 0} {$v < $nodes} {incr v} { set near($v) {} }
    foreach link $links { lassign $link a b d; lappend near($a) $b $d; lappend near($b) $a $d }
    set way($root) 0
    set order [list $root]
    for {set i 0} {$i < [llength $order]} {incr i} {
        set v [lindex $order $i]
        foreach {w d} $near($v) {
            if {![info exists way($w)]} { set way($w) [expr {$way($v) + $d}]; lappend order $w }
        }
    }
    return [array get way]
}
foreach root $hosts { array set way [walk $root]; foreach v [array names way] { set apart($root,$v) $way($v) } }
proc now {} { global ns start; return [expr {[$ns now] - $start}] }
proc tick {time} { return [format %.10g $time] }

# ---- arrivals of requests and repairs to come, as rules need them -------------
proc announce {kind from number} {
    global hosts apart coming
    foreach node $hosts {
        if {$node != $from} { set coming($kind,$node,$number,[tick [expr {[now] + $apart($from,$node)}]]) $from }
    }
}
proc arriving {kind node number} {         ;# the sender of a packet that arrives at this tick, or nothing
    global coming
    set key $kind,$node,$number,[tick [now]]
    if {[info exists coming($key)]} { return $coming($key) }
    return ""
}

# ---- the agents: logging and given distances; then the rules that were asked for
set kind [expr {$adaptive ? "/Adaptive" : ""}]
Class SRM/request/Logged -superclass SRM/request$kind
SRM/request/Logged instproc set-params {sender number} {
    $self next $sender $number
    $self instvar nid_
    global member
    puts "lost $member($nid_) $number [tick [now]]"
}
SRM/request/Logged instproc send-request {} {
    global member rules
    $self instvar nid_ msgid_ ns_ eventID_ waited_
    if {$rules(arrivals-first) && ![info exists waited_]} {
        set waited_ 1                      ;# after all that arrives at this tick
        set eventID_ [$ns_ at [$ns_ now] "$self send-request"]
        return
    }
    unset -nocomplain waited_
    puts "event [tick [now]] $member($nid_) ask $msgid_"
    announce request $nid_ $msgid_
    $self next
}
SRM/request/Logged instproc cancel type { $self instvar waited_; unset -nocomplain waited_; $self next $type }
SRM/request/Logged instproc recv-repair {} {
    global member rules
    $self instvar nid_ msgid_ eventID_ agent_ ns_ sender_ clear_
    if {[info exists eventID_]} { puts "recovered $member($nid_) $msgid_ [tick [now]]" }
    if {!$rules(hold-off-extended)} { $self next; return }
    if {[info exists eventID_]} { $self serviceTime; $self cancel REPAIR }
    $self hold-off [$self distance? $sender_]
}
SRM/request/Logged instproc hold-off base {
    $self instvar ns_ agent_ sender_ msgid_ clear_ ignore_
    if {[info exists clear_]} { $ns_ cancel $clear_ }
    set ignore_ [expr {[$ns_ now] + 3 * $base}]
    set clear_ [$ns_ at $ignore_ "$agent_ clear $self $sender_ $msgid_"]
}
Class SRM/repair/Logged -superclass SRM/repair$kind
SRM/repair/Logged instproc send-repair {} {
    global member rules adaptive
    $self instvar nid_ msgid_ ns_ eventID_ waited_
    if {$rules(arrivals-first) && ![info exists waited_]} {
        set waited_ 1
        set eventID_ [$ns_ at [$ns_ now] "$self send-repair"]
        return
    }
    puts "event [tick [now]] $member($nid_) answer $msgid_"
    announce repair $nid_ $msgid_
    if {$adaptive} { $self answers }
    $self next
}
SRM/repair/Logged instproc base {} {       ;# the distance that its hold-off is three times of
    global rules source apart
    $self instvar nid_ sender_ requestor_ msgid_ eventID_ answered_
    if {!$rules(hold-off-by-source)} { return [$self distance? $requestor_] }
    if {$nid_ != $source} { return $apart($source,$nid_) }
    set from [arriving repair $nid_ $msgid_]
    if {[info exists eventID_] || $from == ""} { return [$self distance? $requestor_] }
    return $apart($nid_,$from)
}
SRM/repair/Logged instproc recv-repair {} {
    global rules
    $self instvar eventID_ ns_ agent_ sender_ msgid_ clear_
    if {![info exists eventID_] && !$rules(hold-off-extended)} { $self next; return }
    set base [$self base]
    if {[info exists eventID_]} { $self cancel REPAIR }
    if {[info exists clear_]} { $ns_ cancel $clear_ }
    set clear_ [$ns_ at [expr {[$ns_ now] + 3 * $base}] "$agent_ clear $self $sender_ $msgid_"]
}
SRM/repair/Logged instproc rest-only {} {  ;# holds off without a timer
    $self instvar ns_ agent_ sender_ msgid_ clear_
    set clear_ [$ns_ at [expr {[$ns_ now] + 3 * [$self base]}] "$agent_ clear $self $sender_ $msgid_"]
}
Class SRM/session/Silent -superclass SRM/session
SRM/session/Silent instproc schedule {} { return }

Class Agent/SRM/Compared -superclass Agent/SRM$kind
Agent/SRM/Compared instproc distance? node { $self instvar node_; global apart; return $apart([$node_ id],$node) }
Agent/SRM/Compared instproc request {sender args} {
    global rules
    eval $self next $sender $args
    $self instvar node_ pending_
    set last [lindex $args end]
    if {$rules(back-off-at-once) && [arriving request [$node_ id] $last] != ""} { $pending_($sender:$last) recv-request }
}
Agent/SRM/Compared instproc recv-repair {round sender number} {
    global rules adaptive
    $self instvar pending_ ns_ node_ repairFunction_ resting_
    if {$adaptive} { set round [$self hears-repair $round $number] }
    if {$rules(hold-off-when-held) && ![info exists pending_($sender:$number)]} {
        set resting_ 1                     ;# no repair timer is set, and so no constant changes
        set rest [new $repairFunction_ $ns_ $self]
        $rest set requestor_ [arriving repair [$node_ id] $number]
        $rest set-params $sender $number
        unset resting_
        set pending_($sender:$number) $rest
        $rest rest-only
        return
    }
    $self next $round $sender $number
}

if {$adaptive} { source [file join [file dirname [info script]] adaptive.tcl] }

# ---- the network, the members, the draws ---------------------------------------
ns-random $seed
set ns [new Simulator -multicast on]
for {set v 0} {$v < $nodes} {incr v} { set node($v) [$ns node] }
foreach link $links {
    lassign $link a b d
    $ns duplex-link $node($a) $node($b) 1e300 $d DropTail
    $ns queue-limit $node($a) $node($b) 100000
    $ns queue-limit $node($b) $node($a) 100000
}
set group [Node allocaddr]
set routing [$ns mrtproto CtrMcast {}]
$ns at 0.25 "$routing switch-treetype $group"
foreach drop $drops {
    lassign $drop place cycle offset
    lassign [lindex $links $place] a b
    if {$apart($source,$a) > $apart($source,$b)} { lassign [list $b $a] a b }
    set loss [new SRMErrorModel]
    $loss drop-packet 2 $cycle $offset
    $loss drop-target [$ns set nullAgent_]
    $ns at 0.5 "$ns lossmodel $loss $node($a) $node($b)"
}
foreach loss $losses {
    lassign $loss place rate
    lassign [lindex $links $place] a b
    foreach {from to} [list $a $b $b $a] {
        set model [new ErrorModel]
        $model unit pkt
        $model set rate_ $rate
        $model ranvar [new RandomVariable/Uniform]
        $model drop-target [$ns set nullAgent_]
        $ns at [expr {$start - 0.25}] "$ns lossmodel $model $node($from) $node($to)"
    }
}
set backoffs [expr {$rules(six-triplings) ? 6 : $rules(ten-doublings) ? 10 : 5}]
set number 0
foreach host $hosts {
    set member($host) $number
    set agent [new Agent/SRM/Compared]
    foreach {key value} [list dst_addr_ $group dst_port_ 0 ttl_ 100000 fid_ [expr {$number + 1}] \
        C1_ $c1 C2_ $c2 D1_ $d1 D2_ $d2 requestBackoffLimit_ $backoffs \
        requestFunction_ SRM/request/Logged repairFunction_ SRM/repair/Logged sessionFunction_ SRM/session/Silent] {
        $agent set $key $value
    }
    $ns at 1.0 "$agent start"
    $ns attach-agent $node($host) $agent
    if {$number == 0} { set sender $agent }
    incr number
}
set traffic [new Application/Traffic/CBR]
$traffic set packetSize_ 1000
$traffic set rate_ [expr {8000.0 / $every}]
$traffic set maxpkts_ $draws
$traffic attach-agent $sender
$sender set tg_ $traffic
$sender set app_fid_ 0
$sender set packetSize_ 1000
$ns at $start "$sender start-source"
foreach at $sessions { $ns at [expr {$start + $at}] "$sender send session" }

proc processor {} { set f [open /proc/self/schedstat]; set t [lindex [read $f] 0]; close $f; return [expr {$t / 1e9}] }
proc finish {} { global begun; puts "cost [expr {[processor] - $begun}]"; exit 0 }
$ns at [expr {$start - 0.5}] "set begun \[processor\]"
$ns at [expr {$start + $end - 0.5}] finish
$ns run
