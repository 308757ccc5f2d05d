#!/usr/bin/env bash
# Builds the examples over the library and runs them: bash examples/run.sh [PROGRAM]. Where a program nfstream is named, the
# C filter's output is compared with the program's. Needs gcc and python3; C++, and the filters in Rust and Go, are left out where
# there is no g++, rustc or go, and that is said.
set -euo pipefail
cd "$(dirname "$0")/.."
program=${1:-}
folder=$(mktemp -d)
trap 'rm -rf "$folder"' EXIT
bash build.sh --library "$folder"
strict=(-std=c11 -O2 -Wall -Wextra -Werror -I"$folder")
gcc "${strict[@]}" examples/cat.c "$folder/libnfstream.a" -o "$folder/cat"
gcc "${strict[@]}" -DCAT_IN=7 -DCAT_OUT=256 examples/cat.c "$folder/libnfstream.a" -o "$folder/tiny"
gcc "${strict[@]}" -DCAT_WHOLE -DCAT_IN=16777216 -DCAT_OUT=67108864 examples/cat.c "$folder/libnfstream.a" -o "$folder/whole"
gcc "${strict[@]}" -g -fsanitize=address,undefined examples/small.c "$folder/libnfstream.a" -o "$folder/small"
gcc -shared -o "$folder/libnfstream.so" -Wl,--whole-archive "$folder/libnfstream.a" -Wl,--no-whole-archive
filters=(tiny whole)
if command -v rustc > /dev/null; then
    rustc --edition 2021 -O -D warnings -L "$folder" -l static=nfstream examples/cat.rs -o "$folder/rust"
    filters+=(rust)
else
    echo "left out: the filter in Rust: no rustc"
fi
if command -v go > /dev/null; then
    CGO_CFLAGS="-O2 -I$folder" CGO_LDFLAGS="$folder/libnfstream.a" GOCACHE="$folder/cache" GO111MODULE=off \
        go build -o "$folder/go" examples/cat.go
    filters+=(go)
else
    echo "left out: the filter in Go: no go"
fi
if command -v g++ > /dev/null; then
    for standard in c++98 c++17; do
        g++ -std=$standard -O2 -Wall -Wextra -pedantic -Werror -I"$folder" -x c++ -include nfstream.h -c /dev/null -o "$folder/header.o"
    done
else
    echo "left out: the header in C++: no g++"
fi
"$folder/small"
python3 examples/state.py "$folder/libnfstream.so"

# Texts of this repository, and one that is made: each line has letters of many scripts, and marks by the hundred.
python3 - "$folder" <<'PYTHON'
import glob, random, sys
folder = sys.argv[1]
names = sorted(glob.glob("*.md") + glob.glob("docs/*") + glob.glob("crates/*/src/*.rt") + glob.glob("crates/*/specs/*.antt"))
open(folder + "/own.txt", "wb").write(b"".join(open(name, "rb").read() for name in names))
draw = random.Random(2)
ranges = ((0x20, 0x7F), (0xA0, 0x250), (0x300, 0x34F), (0x391, 0x590), (0x5D0, 0x5EA), (0x904, 0x94D), (0x1100, 0x1200), (0x1E00, 0x2000), (0x3040, 0x3100), (0xAC00, 0xD7A4), (0xF900, 0xFB00), (0xFB1D, 0xFDFB), (0x1D15E, 0x1D165), (0x1F600, 0x1F650))
lines = []
for _ in range(20000):
    line = [chr(draw.randrange(*draw.choice(ranges))) for _ in range(draw.randint(0, 60))]
    if draw.random() < 0.05:
        line += [chr(draw.randrange(0x300, 0x34F)) for _ in range(draw.randint(25, 300))]
    lines.append("".join(line))
open(folder + "/made.txt", "wb").write("\n".join(lines).encode())
PYTHON
for text in "$folder/own.txt" "$folder/made.txt"; do
    for form in nfc nfd nfkc nfkd; do
        "$folder/cat" $form < "$text" > "$folder/one"
        for filter in "${filters[@]}"; do
            "$folder/$filter" $form < "$text" > "$folder/two"
            cmp "$folder/one" "$folder/two"
        done
        if [ -n "$program" ]; then
            "$program" convert --form $form < "$text" > "$folder/three"
            cmp "$folder/one" "$folder/three"
        fi
    done
    echo "$(basename "$text"): $(wc -c < "$text") bytes, four forms, by cat and ${filters[*]}${program:+, as the program gives them}"
done
