# What srm.tcl adds to ns-2's adaptive agent: logging, given limits and random words; then the rules that were asked for.

Agent/SRM/Compared instproc tell {} {
    global member
    $self instvar node_ C1_ C2_ D1_ D2_
    puts "constants [tick [now]] $member([$node_ id]) $C1_ $C2_ $D1_ $D2_"
}

# ---- limits: ns-2 takes those of a group of G members, and begins D1 and D2 with log10 G ----------
Agent/SRM/Compared instproc check-bounds args {
    global adaptive limits
    $self set groupSize_ $adaptive
    if {$limits == ""} { eval $self next $args; return }
    foreach name {C1_ C2_ D1_ D2_} {least most} $limits {
        $self instvar $name
        set $name [expr {round(1000 * min($most, max($least, [set $name]))) / 1000.0}]
    }
}
Agent/SRM/Compared instproc recompute-request-params {} { $self next; $self tell }
Agent/SRM/Compared instproc recompute-repair-params {} {
    global adaptive limits
    $self instvar resting_ stats_
    if {[info exists resting_]} { return }
    $self set groupSize_ $adaptive
    if {$limits == "" || $stats_(ave-rep-delay) >= 0} { $self next }
    $self tell
}

# ---- random words: a timer of them lasts as long as srm_lab's, of a least and a greatest whole number of ticks ------
Agent/SRM/Compared instproc word {} {
    global member given
    $self instvar node_
    set words $given($member([$node_ id]))
    if {$words == ""} { error "member $member([$node_ id]) has no word left" }
    set given($member([$node_ id])) [lrange $words 1 end]
    return [lindex $words 0]
}
proc drawn {start width distance factor word} {
    set least [expr {$factor * round(1000 * $start) * round($distance) / 1000}]
    set most [expr {$factor * round(1000 * ($start + $width)) * round($distance) / 1000}]
    return [expr {max(1, $least + (($word * ($most - $least + 1)) >> 32))}]
}
SRM/request/Logged instproc compute-delay {} {
    global rules given
    $self instvar agent_ C1_ C2_ sender_ taking_
    if {$rules(present-constants)} { set C1_ [$agent_ set C1_]; set C2_ [$agent_ set C2_] }
    if {![info exists given]} { return [$self next] }
    set taking_ 1
    set factor [$self backoff?]
    unset taking_
    return [drawn $C1_ $C2_ [$self distance? $sender_] $factor [$agent_ word]]
}
SRM/request/Logged instproc backoff? {} {  ;# with given words the factor is in the length already
    global given
    $self instvar taking_
    if {[info exists given] && ![info exists taking_]} { return 1 }
    return [$self next]
}
SRM/request/Logged instproc recv-request {} {
    global given
    $self instvar ns_ round_ ignore_ delay_
    set before $round_
    $self next
    if {[info exists given] && $round_ != $before} { set ignore_ [expr {[$ns_ now] + floor($delay_ / 2)}] }
}
SRM/repair/Logged instproc compute-delay {} {
    global given
    $self instvar agent_ D1_ D2_ requestor_
    if {![info exists given]} { return [$self next] }
    return [drawn $D1_ $D2_ [$self distance? $requestor_] 1 [$agent_ word]]
}

# ---- distances that packets carry; ns-2 measures them by its session messages --------------------------------------
SRM/repair/Logged instproc answers {} {
    global rules repairs_for
    $self instvar nid_ msgid_ requestor_ round_ agent_
    set repairs_for($nid_,$msgid_) $requestor_
    if {$rules(every-recovery) && $round_ != 1} { $agent_ sending-repair }
}
Agent/SRM/Compared instproc hears-repair {round number} {
    global rules apart repairs_for
    $self instvar node_
    set from [arriving repair [$node_ id] $number]
    if {$from == ""} { set from [$node_ id] }
    $self set pdistance_ $apart($from,$repairs_for($from,$number))
    return [expr {$rules(every-recovery) ? 1 : $round}]
}
Agent/SRM/Compared instproc recv-request {requester round sender number} {
    global rules apart
    $self set pdistance_ $apart($sender,$requester)
    $self next $requester [expr {$rules(every-recovery) ? 1 : $round}] $sender $number
}

# ---- the rules ------------------------------------------------------------------------------------------------------
Agent/SRM/Compared instproc mark-period period {
    global rules
    if {$rules(averaged-once)} { $self set stats_($period) 0 } else { $self next $period }
}
Agent/SRM/Compared instproc compute-ave what {
    global rules
    if {!$rules(whole-thousandths)} { return [$self next $what] }
    $self instvar stats_
    set taken [expr {int(floor(1000 * $stats_($what) + 1e-6))}]
    set before $stats_(ave-$what)
    if {$before >= 0} { set taken [expr {(3 * round(1000 * $before) + $taken) / 4}] }
    set stats_(ave-$what) [expr {$taken / 1000.0}]
}
foreach {method constant} {sending-request C1_ sending-repair D1_} {
    Agent/SRM/Compared instproc $method {} [string map [list CONSTANT $constant] {
        global rules
        if {$rules(half-step-first)} { $self set CONSTANT [expr {[$self set CONSTANT] + 0.05}] }
        $self next
        $self tell
    }]
}
SRM/request/Logged instproc dup-request? {} {
    global rules
    $self instvar eventID_ ignore_ ns_
    if {!$rules(duplicates-ignored)} { return [$self next] }
    return [expr {[info exists eventID_] && [info exists ignore_] && [$ns_ now] < $ignore_}]
}
foreach class {SRM/request/Logged SRM/repair/Logged} {
    $class instproc dup-repair? {} {
        global rules
        $self instvar eventID_
        if {$rules(duplicates-at-rest)} { return [expr {![info exists eventID_]}] }
        return [$self next]
    }
}
SRM/repair/Logged instproc closest-repairor? {} {
    global rules
    if {$rules(sent-first-alone)} { return -1 }
    return [$self next]
}
SRM/request/Logged instproc closest-requestor? {} {
    global rules
    if {$rules(sent-first-alone)} { return -1 }
    return [$self next]
}
SRM/repair/Logged instproc cancel type {
    global rules
    $self instvar round_ agent_
    $self next $type
    if {$rules(every-recovery) && $type == "REPAIR" && $round_ != 1} { $agent_ update-ave rep [$self serviceTime] }
}
