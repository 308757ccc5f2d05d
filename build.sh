#!/usr/bin/env bash
# Proves and builds the program, and leaves it as ./nfstream, or in the folder that is named: bash build.sh [FOLDER]. Where
# that is a bin/ it says where the manual's page goes.
# bash build.sh --library FOLDER proves and builds the library for C instead, and puts libnfstream.a, nfstream.h and
# nfstream.pc there.
set -euo pipefail
top=$(cd "$(dirname "$0")" && pwd)
library=
if [ "${1:-}" = --library ]; then
    library=1
    shift
    if [ $# -ne 1 ]; then
        echo "build.sh: --library wants a folder" >&2
        exit 2
    fi
fi
folder=${1:-$top}
if [ ! -d "$folder" ]; then
    echo "build.sh: there is no folder $folder" >&2
    exit 2
fi
full=$(realpath "$folder")
cd "$top"
. tools/proving.sh
find_rt
if [ -n "$library" ]; then
    prove nfstream_c lib
    install -m 644 crates/nfstream_c/out/libnfstream_c.a "$full/libnfstream.a"
    install -m 644 include/nfstream.h "$full/nfstream.h"
    write_pc "$full/nfstream.pc" "$full" "$full"
    echo "built $folder/libnfstream.a in $(took $SECONDS)" >&2
    exit 0
fi
prove nfstream run -- --help
install -m 755 crates/nfstream/out/nfstream "$full/nfstream"
echo "built $folder/nfstream in $(took $SECONDS)" >&2
case $full in
    */bin) echo "its manual: install -D -m 644 $PWD/docs/nfstream.1 $(realpath "$full/..")/share/man/man1/nfstream.1" >&2 ;;
    *) echo "its manual: man $PWD/docs/nfstream.1" >&2 ;;
esac
