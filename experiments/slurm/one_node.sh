#!/usr/bin/env bash
# Sets up a Slurm of one node, this machine, to try the workflow on; needs root and slurm/packages.txt.
#
#   slurm/one_node.sh start DIR    starts munged, slurmctld and slurmd with their files under DIR, and waits till the
#                                  node is idle; then: export SLURM_CONF=DIR/slurm.conf
#   slurm/one_node.sh stop DIR     stops the processes that start started, by their numbers, and waits till they end
#
# It has one partition, `all`, no accounts and no time limit, so that jobs need no options for these. For a cluster that
# wants them: make experiments-slurm SBATCH="--partition=NAME --account=NAME --time=MINUTES"
set -eu
what=${1:?start or stop}
dir=$(realpath -m "${2:?a directory}")

start() {
    mkdir -p "$dir/state" "$dir/spool" "$dir/munge"
    chown munge: "$dir/munge" && chmod 711 "$dir" && chmod 755 "$dir/munge"
    dd if=/dev/urandom bs=1 count=1024 of="$dir/munge/key" status=none
    chown munge: "$dir/munge/key" && chmod 400 "$dir/munge/key"
    runuser -u munge -- munged --force --key-file="$dir/munge/key" --socket="$dir/munge/socket" \
        --pid-file="$dir/munge/pid" --log-file="$dir/munge/log" --seed-file="$dir/munge/seed"
    local node
    node=$(hostname -s)
    cat > "$dir/slurm.conf" <<CONF
ClusterName=one
SlurmctldHost=$node(127.0.0.1)
SlurmUser=root
AuthInfo=socket=$dir/munge/socket
StateSaveLocation=$dir/state
SlurmdSpoolDir=$dir/spool
SlurmctldPidFile=$dir/slurmctld.pid
SlurmdPidFile=$dir/slurmd.pid
SlurmctldLogFile=$dir/slurmctld.log
SlurmdLogFile=$dir/slurmd.log
ProctrackType=proctrack/linuxproc
TaskPlugin=task/none
SelectType=select/cons_tres
SelectTypeParameters=CR_Core
AccountingStorageType=accounting_storage/none
JobAcctGatherType=jobacct_gather/none
MpiDefault=none
ReturnToService=2
NodeName=$node NodeAddr=127.0.0.1 CPUs=$(nproc) State=UNKNOWN
PartitionName=all Nodes=$node Default=YES MaxTime=INFINITE State=UP
CONF
    export SLURM_CONF=$dir/slurm.conf
    slurmctld
    slurmd
    for _ in $(seq 60); do
        if [ "$(sinfo --noheader --format=%t 2>/dev/null)" = idle ]; then
            echo "export SLURM_CONF=$SLURM_CONF"
            return
        fi
        sleep 1
    done
    echo "the node is not idle after a minute: $(sinfo 2>&1); see $dir/slurmctld.log and $dir/slurmd.log" >&2
    exit 1
}

stop() {
    for file in "$dir/slurmd.pid" "$dir/slurmctld.pid" "$dir/munge/pid"; do
        if [ -s "$file" ]; then
            local process
            process=$(cat "$file")
            kill "$process" || true
            timeout 20 tail --pid="$process" --follow /dev/null || kill -KILL "$process"
        fi
    done
}

case $what in
    start) start ;;
    stop) stop ;;
    *) echo "start or stop, and not $what" >&2; exit 2 ;;
esac
