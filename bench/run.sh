#!/usr/bin/env bash
# Measures programs beside Rust's unicode-normalization, ICU and cat, and prints a Markdown table:
#   bash bench/run.sh [OPTION..] [[TITLE=]PROGRAM..]      (./nfstream of the repository where none is named)
# 'bash bench/run.sh --help' tells the options. Needs python3 (3.10 or later), and the texts that corpora.sh makes.
# A peer that can't be built is left out. Nothing is left behind.
set -euo pipefail
bench=$(cd "$(dirname "$0")" && pwd)
registry=/usr/share/cargo/registry

. "$bench/setup.sh"
need python3

options=()
programs=()
plan=
while [ $# -gt 0 ]; do
    case $1 in
        --forms | --texts | --corpora | --data | --peer) options+=("$1" "${2:-}"); shift $(($# > 1 ? 2 : 1)) ;;
        -h | --help) exec python3 -B "$bench/table.py" --help ;;
        --plan) plan=yes; shift ;;
        -*) options+=("$1"); shift ;;
        *) programs+=("$1"); shift ;;
    esac
done
[ ${#programs[@]} -gt 0 ] || programs=("nfstream=$bench/../nfstream")
table() { python3 -B "$bench/table.py" "${options[@]}" "$@" -- "${programs[@]}"; }
table --plan
[ -z "$plan" ] || exit 0
for program in "${programs[@]}"; do need_program "${program#*=}"; done
make_scratch

# build_NAME leaves a peer at $scratch/NAME, and version_NAME says what it is. Cargo writes nothing outside of $scratch.
build_rust() {
    command -v cargo && [ -d "$registry" ] || return 1
    cp -r "$bench/rust" "$scratch/source" || return 1
    (cd "$scratch/source" && CARGO_HOME=$scratch/cargo cargo build --release --offline --jobs 1 --target-dir "$scratch/target" \
        --config 'source.crates-io.replace-with="debian"' \
        --config "source.debian.directory=\"$registry\"") || return 1
    mv "$scratch/target/release/peer" "$scratch/rust"
}
version_rust() { echo "$(cd "$registry" && ls -d unicode-normalization-[0-9]*) by $(rustc --version | cut -d ' ' -f 1,2)"; }
build_icu() { g++ -std=c++17 -O2 -o "$scratch/icu" "$bench/icu.cpp" -licuuc; }
version_icu() { echo "$("$scratch/icu" --version) by g++ $(g++ -dumpfullversion)"; }

peers=()
versions=()
build() { # build NAME NEEDS
    if "build_$1" > "$scratch/log" 2>&1; then
        peers+=(--peer "$1=$scratch/$1")
        versions+=("$("version_$1")")
    else
        tail -n 5 "$scratch/log" >&2
        say "$1 is left out: it needs $2"
    fi
}
build rust "cargo, and Debian's librust-unicode-normalization-dev"
build icu "g++, and Debian's libicu-dev"

say "measuring; this takes some minutes"
status=0
table --scratch "$scratch" "${peers[@]}" || status=$?
versions+=("$(cat --version | head -n 1)" "$(sed -n 's/^model name.*: //p' /proc/cpuinfo | head -n 1), $(nproc) processors")
printf -v all '%s; ' "${versions[@]}"
printf '\n%s.\n' "${all%; }"
exit "$status"
