# Slurm: slurmctld and slurmd of one node with munge, all of this test's own, and the scripts of examples/cluster.
. "$ENGINES/common"
needs slurmctld slurmd munged sbatch setpriv
[ "$(id -u)" -eq 0 ] || { says "not run: it needs root"; exit 77; }
here=$PWD
mkdir state spool munge
chmod 755 . munge
export SLURM_CONF="$here/slurm.conf"
node=$(hostname -s)
ports='import socket; two = [socket.socket() for _ in range(2)]; [one.bind(("127.0.0.1", 0)) for one in two]; print(*(one.getsockname()[1] for one in two))'
set -- $(python3 -c "$ports")
cat >slurm.conf <<C
ClusterName=engines
SlurmctldHost=$node(127.0.0.1)
AuthType=auth/munge
AuthInfo=socket=$here/munge/socket
CredType=cred/munge
SlurmUser=root
SlurmdUser=root
SlurmctldPort=$1
SlurmdPort=$2
SlurmctldPidFile=$here/slurmctld.pid
SlurmdPidFile=$here/slurmd.pid
SlurmctldLogFile=$here/slurmctld.log
SlurmdLogFile=$here/slurmd.log
StateSaveLocation=$here/state
SlurmdSpoolDir=$here/spool
ProctrackType=proctrack/linuxproc
TaskPlugin=task/none
SelectType=select/cons_tres
SelectTypeParameters=CR_Core_Memory
SwitchType=switch/none
MpiDefault=none
ReturnToService=2
SchedulerParameters=sched_min_interval=200000,batch_sched_delay=0
MaxArraySize=9
NodeName=$node NodeAddr=127.0.0.1 CPUs=$(nproc) RealMemory=$(awk '/^MemTotal/{print int($2 / 1024)}' /proc/meminfo) State=UNKNOWN
PartitionName=all Nodes=$node Default=YES MaxTime=INFINITE State=UP
C
dd if=/dev/urandom of=munge/key bs=128 count=1 2>/dev/null
chmod 400 munge/key
starts munged --foreground --force --key-file="$here/munge/key" --socket="$here/munge/socket" --pid-file="$here/munge/pid" --seed-file="$here/munge/seed" \
    --log-file="$here/munge/log"
within 30 test -S munge/socket
starts slurmctld -D -f "$SLURM_CONF"
within 60 scontrol ping
starts slurmd -D -f "$SLURM_CONF"
is_idle() { [ "$(sinfo --noheader --format=%t)" = idle ]; }
within 60 is_idle

no_jobs() { jobs=$(squeue --noheader) && [ -z "$jobs" ]; }
# submit DIGEST: submits, and waits for the end of all jobs.
submit() {
    (cd away && "$DISK/examples/cluster/submit" "$PARTS" "$CODE" "$1" "$ANSWERS") || exit 1
    within 3600 no_jobs
    [ -e "$ANSWERS" ]
}
refuses submit
rm away/*
: >begun
submit "$DIGEST" >log &
killed from slurm_script
if wait $!; then says "joined without a part"; exit 1; fi
grep -q 'parts have no answer, the first is' away/slurm-*.out || { says "the join doesn't say which part is left"; cat log away/*; exit 1; }
submit "$DIGEST" >log || { says "not joined"; cat log away/*; exit 1; }
