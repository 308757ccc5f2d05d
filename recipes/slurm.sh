#!/usr/bin/env bash
# Runs recipes/slurm_part.sbatch as a job array of a Slurm of its own, without root, and compares with one process, byte by byte:
# bash recipes/slurm.sh PROGRAM. Needs Debian's packages slurmctld, slurmd, slurm-client and munge; ends with status 77 without.
set -euo pipefail
program=$(realpath -e "${1:?which nfstream?}")
here=$(realpath "$(dirname "$0")")
export PATH=$PATH:/usr/sbin
for it in slurmctld slurmd sbatch munged; do
    command -v "$it" > /dev/null || { echo "slurm.sh: $it is missing" >&2; exit 77; }
done
[ "$(id -u)" != 0 ] || { echo "slurm.sh: start it as an ordinary user" >&2; exit 77; }
folder=$(mktemp -d)
end() {
    local it
    for it in slurmd slurmctld munged; do kill "$(cat $it.pid)" || true; done 2> /dev/null
    for _ in $(seq 100); do [ -z "$(cat slurmd.pid slurmctld.pid 2> /dev/null)" ] && break; sleep 0.1; done
    rm -rf "$folder"
}
trap end EXIT
cd "$folder"
mkdir bin state spool
ln -s "$program" bin/nfstream
export PATH=$folder/bin:$PATH

# A Slurm of one node, which is this machine.
free() { python3 -c 'import socket; it = socket.socket(); it.bind(("127.0.0.1", 0)); print(it.getsockname()[1])'; }
head -c 1024 /dev/urandom > key
chmod 400 key
cat > slurm.conf <<END_OF_FILE
ClusterName=own
SlurmctldHost=$(hostname -s)(127.0.0.1)
NodeName=$(hostname -s) NodeAddr=127.0.0.1 CPUs=$(nproc)
PartitionName=all Nodes=ALL Default=YES
SlurmUser=$(id -un)
SlurmdUser=$(id -un)
SlurmctldPort=$(free)
SlurmdPort=$(free)
AuthType=auth/munge
AuthInfo=socket=$folder/socket
StateSaveLocation=$folder/state
SlurmdSpoolDir=$folder/spool
SlurmctldPidFile=$folder/slurmctld.pid
SlurmdPidFile=$folder/slurmd.pid
SlurmctldLogFile=$folder/log
SlurmdLogFile=$folder/log
SlurmdParameters=config_overrides
ProctrackType=proctrack/pgid
TaskPlugin=task/none
SchedulerParameters=batch_sched_delay=0,sched_min_interval=0
SelectType=select/cons_tres
SelectTypeParameters=CR_CPU
END_OF_FILE
export SLURM_CONF=$folder/slurm.conf
munged --force --key-file=key --socket="$folder/socket" --pid-file="$folder/munged.pid" --log-file="$folder/munged" --seed-file="$folder/seed" 2> /dev/null
slurmctld
slurmd
for _ in $(seq 300); do [ "$(sinfo -h -o %T 2> /dev/null)" = idle ] && break; sleep 0.1; done

# Lines of many scripts; one is longer than a part.
python3 - <<'PYTHON'
import random
draw = random.Random(6)
ranges = ((0x20, 0x7F), (0xA0, 0x250), (0x300, 0x34F), (0x391, 0x590), (0x1100, 0x1200), (0x1E00, 0x2000), (0xAC00, 0xD7A4), (0xFB1D, 0xFDFB))
lines = ["".join(chr(draw.randrange(*draw.choice(ranges))) for _ in range(draw.randint(0, 60))) for _ in range(40000)]
lines.insert(20000, "e\u0323\u0302 " * 300000)
text = "\n".join(lines).encode()
open("text", "wb").write(text)
open("bad", "wb").write(text + b"\nab\xc3(\n")
PYTHON
array() { # array TEXT FLAGS..: as four tasks
    local text=$1
    shift
    sbatch --quiet --wait --array=1-4 --output="$text.told.%a" "$here/slurm_part.sbatch" "$text" "$@"
}
waited=()
for form in nfc nfd nfkc nfkd; do
    ln text $form
    array $form --form $form &
    waited+=($!)
done
status=0
array bad --form nfc || status=$?
for it in "${waited[@]}"; do wait "$it"; done
for form in nfc nfd nfkc nfkd; do cat $form.{1..4}.out | cmp - <(nfstream convert --form $form < text); done
echo "a job array of 4: the bytes of one process, in four forms"
echo "at a fault: status $status, $(ls bad.*.out | wc -l) parts are whole, and: $(cat bad.told.*)"
