#!/usr/bin/env bash
# Refuses each growth of memory of nfstream in turn, the first, the second and so on until a run meets no refusal, over each
# of its commands: bash bench/growths.sh [PROGRAM]      (PROGRAM is ./nfstream of the repository)
# Each refusal is to end the run with status 5, one line on standard error and no output; while the words of the command line
# are gathered, with status 2 and nothing written; or it makes no difference, where the memory can be done without.
# Ends with status 1 where one does anything else. Needs a C compiler (cc).
set -uo pipefail
bench=$(cd "$(dirname "$0")" && pwd)
most=1000 # a run that meets as many refusals would be another program

. "$bench/setup.sh"
need cc "Debian's package gcc"
program=${1:-$bench/../nfstream}
need_program "$program"
program=$(realpath "$program")
make_scratch
cc -O2 -Wall -shared -fPIC -o "$scratch/refusing.so" "$bench/refusing.c" || exit 1

printf 'q\314\201\314\201 Vi\341\273\207t' > "$scratch/text"
printf 'ab\303(' > "$scratch/ill-formed"
printf '@Part0\n1E9B 0323;1E9B 0323;017F 0323 0307;1E69;0073 0323 0307;\n0061;0062;0061;0061;0061;\n' > "$scratch/rows"
printf '@Part1\n00C5;00C5;0041 030A;00C5;0041 030A;\n0041;0041;0041;0041;0041;\n' > "$scratch/part1"
for line in $(seq 5000); do printf '0061;0061;0061;0061;0061;\n'; done > "$scratch/long"

failed=0
wrong() { # wrong COMMAND NUMBER WHAT
    say "'$1', growth $2: $3"
    failed=1
}

# Runs a command with the growth of this number refused.
refuse() { # refuse NUMBER INPUT WORD..
    local number=$1 input=$2
    shift 2
    rm -f "$scratch/refused"
    REFUSE=$number REFUSED=$scratch/refused LD_PRELOAD=$scratch/refusing.so \
        "$program" "$@" < "$scratch/$input" > "$scratch/out" 2> "$scratch/err"
    status=$?
}

makes_no_difference() {
    [ "$status" -eq "$due" ] && cmp -s "$scratch/out" "$scratch/due-out" && cmp -s "$scratch/err" "$scratch/due-err"
}

row() { # row STATUS INPUT WORD..    the status is that of a run that meets no refusal
    local due=$1 input=$2 number words=0 memory=0 same=0
    shift 2
    refuse 0 "$input" "$@"
    mv "$scratch/out" "$scratch/due-out"
    mv "$scratch/err" "$scratch/due-err"
    [ "$status" -eq "$due" ] || wrong "$*" none "status $status"
    for ((number = 1; number <= most; number++)); do
        refuse "$number" "$input" "$@"
        [ -e "$scratch/refused" ] || break
        if makes_no_difference; then
            same=$((same + 1))
            continue
        fi
        [ ! -s "$scratch/out" ] || wrong "$*" "$number" "something was written"
        case "$status $(cat "$scratch/err")" in
            "2 ") words=$((words + 1)) ;;
            "5 nfstream: out of memory") memory=$((memory + 1)) ;;
            *) wrong "$*" "$number" "status $status: $(head -n 1 "$scratch/err")" ;;
        esac
    done
    makes_no_difference || wrong "$*" "$number" "nothing was refused, and the answer is another"
    echo "| \`$*\` | $input | $words | $memory | $same |"
}

echo "| Command | Input | No memory for the words | Out of memory | No difference |"
echo "| --- | --- | ---: | ---: | ---: |"
for form in nfc nfd nfkc nfkd; do
    row 0 text convert --form "$form"
done
row 3 ill-formed convert --form nfc
row 0 text check
row 0 text check --form nfc
row 2 text check --assigned
row 0 text measure
row 1 rows test
row 1 part1 test
row 0 long test
row 3 text test
row 0 text --help
row 2 text normalize
exit "$failed"
