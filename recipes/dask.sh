#!/usr/bin/env bash
# Compares recipes/dask_nfstream.py with one process, byte by byte: bash recipes/dask.sh PROGRAM. In each form, on 1, 2 and 4
# workers, and where a worker is killed in the middle of a part; then what it tells of a fault. The scheduler and its workers
# are processes of this machine, which talk over TCP. Needs Debian's package python3-distributed; ends with status 77 without it.
set -euo pipefail
program=$(realpath -e "${1:?which nfstream?}")
cd "$(dirname "$0")"
python=/usr/bin/python3
"$python" -c 'import distributed' 2> /dev/null || { echo "dask.sh: Debian's package python3-distributed is missing" >&2; exit 77; }
folder=$(mktemp -d)
children=()
trap 'kill "${children[@]}" 2> /dev/null || true; wait; rm -rf "$folder"' EXIT

# Lines of many scripts, no two alike; some have marks by the hundred, and one is longer than a part. The last has no end.
"$python" - "$folder" <<'PYTHON'
import random, sys
folder = sys.argv[1]
draw = random.Random(5)
ranges = ((0x20, 0x7F), (0xA0, 0x250), (0x300, 0x34F), (0x391, 0x590), (0x904, 0x94D), (0x1100, 0x1200), (0x1E00, 0x2000), (0xAC00, 0xD7A4), (0xFB1D, 0xFDFB))
lines = []
for _ in range(10000):
    line = [chr(draw.randrange(*draw.choice(ranges))) for _ in range(draw.randint(0, 60))]
    if draw.random() < 0.05:
        line += [chr(draw.randrange(0x300, 0x34F)) for _ in range(draw.randint(25, 300))]
    lines.append("".join(line))
numbered = [f"{turn} {number} {line}" for turn in range(12) for number, line in enumerate(lines)]
numbered.insert(50000, "e\u0323\u0302 " * 400000)
text = "\n".join(numbered).encode()
open(folder + "/text", "wb").write(text)
middle = text.index(b"\n", len(text) // 2) + 1
open(folder + "/bad", "wb").write(text[:middle] + b"ab\xc3(\n" + text[middle:] + b"\n\xff")
open(folder + "/cut", "wb").write(text + b"\n\xe1\xba")
PYTHON
cd "$folder"

# It kills the worker that runs it, once, when half of a part is written.
cat > killing <<END
#!/bin/sh
if mkdir "$folder/killed" 2> /dev/null; then
    head -c 500000 | "$program" "\$@"
    kill -9 \$PPID
fi
exec "$program" "\$@"
END
chmod +x killing

"$python" -m distributed.cli.dask_scheduler --host 127.0.0.1 --port 0 --dashboard-address 127.0.0.1:0 --scheduler-file scheduler > log 2>&1 &
children+=($!)
for _ in $(seq 300); do [ -s scheduler ] && break; sleep 0.1; done
address=$("$python" -c 'import json; print(json.load(open("scheduler"))["address"])')
workers=0
grow() {
    while [ $workers -lt "$1" ]; do
        "$python" -m distributed.cli.dask_worker "$address" --nthreads 1 --no-dashboard --local-directory "$folder/dask" >> log 2>&1 &
        children+=($!)
        workers=$((workers + 1))
    done
    "$python" -c 'import sys, distributed; distributed.Client(sys.argv[1]).wait_for_workers(int(sys.argv[2]), 60)' "$address" "$1"
}
spread() { "$python" "$OLDPWD/dask_nfstream.py" --scheduler "$address" --part 1 --program "$@"; }

for form in nfc nfd nfkc nfkd; do "$program" convert --form $form < text > $form; done
for number in 1 2 4; do
    grow $number
    for form in nfc nfd nfkc nfkd; do
        spread "$program" text out -- --form $form
        cmp out $form
    done
    echo "workers $number: the bytes of one process, in four forms"
done
for form in nfc nfd nfkc nfkd; do
    rm -rf killed
    spread ./killing text out -- --form $form
    [ -d killed ]
    cmp out $form
done
echo "a worker killed in the middle of a part: the same, in four forms"
for text in bad cut; do
    cp nfc out
    status=0
    spread "$program" $text out 2> told || status=$?
    one=0
    "$program" convert --form nfc < $text > /dev/null 2> wanted || one=$?
    [ $status = $one ]
    head -n 1 told | cmp - wanted
    cmp out nfc
    echo "at a fault: status $status, the output as it was, and: $(head -n 1 told)"
    "$program" convert --form nfd --replace < $text > wanted
    spread "$program" $text out -- --form nfd --replace
    cmp out wanted
done
echo "the same texts with --replace: the bytes of one process"
: > empty
spread "$program" empty out
cmp out empty
"$python" "$OLDPWD/dask_nfstream.py" --workers 2 --part 4 --program "$program" text out
cmp out nfc
[ -z "$(find . -name 'out.*')" ]
echo "no text, and workers of its own: the same; no part is left behind"
