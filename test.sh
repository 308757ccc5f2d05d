#!/usr/bin/env bash
# Runs the gate: every proof from nothing, the must-fail edits, the tests and the program. Then, where what they need is there,
# the tests of what stands outside the crates: the callers of examples/, Python, Rust, install.sh, refused memory, and the
# commands that the documents show, with the recipes' scripts. Each of these counts as one. The last line counts all.
set -uo pipefail
cd "$(dirname "$0")" || exit 2
. tools/proving.sh
find_rt
most=1800 # seconds for what stands outside the crates, and half of that for each
passed=0 failed=0 wrong=()
child=''
work=$(mktemp -d)
chmod 755 "$work"
trap '[ -z "$child" ] || kill "$child" 2> /dev/null; rm -rf "$work"' EXIT
trap 'exit 130' INT TERM

counted() { # counted STATUS NAME
    if [ "$1" -eq 0 ]; then
        passed=$((passed + 1))
    else
        failed=$((failed + 1))
        wrong+=("$2")
    fi
}

gate() {
    local status last
    "$rt" ci 2>&1 < /dev/null | tee "$work/gate"
    status=${PIPESTATUS[0]}
    last=$(tail -n 1 "$work/gate")
    if [[ $last =~ ^([0-9]+)\ passed,\ ([0-9]+)\ failed$ ]]; then
        passed=${BASH_REMATCH[1]} failed=${BASH_REMATCH[2]}
        [ "$failed" -eq 0 ] || wrong+=("the gate")
    fi
    [ "$status" -eq 0 ] || [ "$failed" -gt 0 ] || counted 1 "the gate"
    # rt says so and passes; but an edit that does not reach the prover shows nothing of a contract.
    ! grep -q '^rt: note: bad must-fail edits' "$work/gate" || counted 1 "must-fail edits that do not reach the prover"
    rm -f "$work/gate"
}

# Runs a command for as long as it may, and counts it. Where it fails the end of what it said is shown; with status 77 it is
# left out, since something is not there. What a command that passes says that it left out is shown too.
try() { # try NAME COMMAND..
    local name=$1 left=$((deadline - SECONDS)) began=$SECONDS status
    shift
    [ "$left" -lt $((most / 2)) ] || left=$((most / 2))
    if [ "$left" -le 0 ]; then
        echo "$name: FAILED: the $most seconds for these tests are over"
        counted 1 "$name"
        return
    fi
    timeout -k 5 "$left" "$@" > "$work/said" 2>&1 < /dev/null &
    child=$!
    wait "$child"
    status=$?
    child=''
    if [ "$status" -eq 77 ]; then
        left_out "$name" "$(tail -n 1 "$work/said")"
        return
    fi
    if [ "$status" -eq 0 ]; then
        echo "$name: passed in $((SECONDS - began)) s"
        grep 'left out: ' "$work/said" | sed 's/^/    /'
    else
        echo "$name: FAILED with status $status after $((SECONDS - began)) s; the end of what it said:"
        tail -n 40 "$work/said"
    fi
    counted "$status" "$name"
}

left_out() { echo "$1: left out: $2"; }

has() { # has COMMAND..
    local it
    for it; do PATH=$PATH:/usr/sbin command -v "$it" > /dev/null || { lacks=$it; return 1; }; done
}

gate
program=$work/nfstream
if ! install -m 755 crates/nfstream/out/nfstream "$program" 2> /dev/null; then
    echo "the program, which the gate did not leave:"
    timeout -k 5 5400 bash build.sh "$work" < /dev/null || { counted 1 build.sh; program=; }
fi
echo "the library for C, for the tests outside the crates:"
if timeout -k 5 5400 bash build.sh --library "$work" < /dev/null; then library=1; else library=; fi
[ -n "$library" ] || counted 1 "build.sh --library"
deadline=$((SECONDS + most))

if [ -n "$library" ] && has cc && make_shared "$work/libnfstream.a" "$work/libnfstream.so.1"; then shared=1; else shared=; fi
if [ -z "$library" ]; then
    for it in examples/run.sh python rust install.sh; do left_out "$it" "the library was not built"; done
else
    if has gcc python3; then try examples/run.sh bash examples/run.sh $program; else left_out examples/run.sh "no $lacks"; fi
    if [ -z "$shared" ]; then
        left_out python "there is no C compiler to make the shared library"
    elif has python3; then
        try python env -C python PYTHONDONTWRITEBYTECODE=1 "NFSTREAM_LIBRARY=$work/libnfstream.so.1" python3 -m unittest
    else
        left_out python "no python3"
    fi
    if has cargo rustc cc; then
        cp -r rust "$work/rust" && rm -f "$work/rust/Cargo.lock"
        try rust env -C "$work/rust" "NFSTREAM_DIR=$work" "CARGO_TARGET_DIR=$work/target" cargo test --offline
    else
        left_out rust "no $lacks"
    fi
    if [ -z "$program" ]; then
        left_out install.sh "the program was not built"
    elif has cc pkg-config python3; then
        try install.sh bash tools/try_install.sh
    else
        left_out install.sh "no $lacks"
    fi
fi
if [ -z "$program" ]; then
    for it in bench/growths.sh docs/commands.py; do left_out "$it" "the program was not built"; done
else
    if has cc; then try bench/growths.sh bash bench/growths.sh "$program"; else left_out bench/growths.sh "no cc"; fi
    if has python3; then try docs/commands.py python3 docs/commands.py "$program"; else left_out docs/commands.py "no $lacks"; fi
fi
[ "${#wrong[@]}" -eq 0 ] || echo "FAILED: $(printf '%s; ' "${wrong[@]}" | sed 's/; $//')"
echo "$passed passed, $failed failed"
[ "$failed" -eq 0 ]
