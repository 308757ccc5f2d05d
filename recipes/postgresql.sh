#!/usr/bin/env bash
# Loads lines into PostgreSQL through nfstream, and asks the server whether each row is in NFC: bash recipes/postgresql.sh
# PROGRAM [FILE]. It starts a server of its own in a temporary folder, by an ordinary user, and takes it away again. Needs
# Debian's package postgresql. FILE is UTF-8; where none is named, four lines are made.
set -euo pipefail
program=$(realpath "${1:?which nfstream?}")
bin=$(find /usr/lib/postgresql -maxdepth 2 -name bin | sort -V | tail -1)
[ -n "$bin" ] || { echo "postgresql.sh: Debian's package postgresql is missing" >&2; exit 2; }
[ "$(id -u)" != 0 ] || { echo "postgresql.sh: PostgreSQL does not run as root: take an ordinary user" >&2; exit 2; }
export LC_ALL=C.UTF-8
folder=$(mktemp -d)
stop() { "$bin/pg_ctl" -D "$folder/data" -m immediate stop > /dev/null 2>&1 || true; rm -rf "$folder"; }
trap stop EXIT

# Vietnamese and Korean in NFD, a letter with 100 marks, and two characters younger than the server's Unicode
if [ $# -gt 1 ]; then cp "$2" "$folder/lines"; else
    { printf 'Vie\314\202\314\243t Nam\n'; printf '\341\204\222\341\205\241\341\206\253\341\204\200\341\205\263\341\206\257\n'
      printf 'q'; for _ in $(seq 100); do printf '\314\201'; done; printf '\n'
      printf '\360\220\227\222\314\207\n'; } > "$folder/lines"
fi

"$bin/initdb" -D "$folder/data" -A trust -E UTF8 > "$folder/log"
"$bin/pg_ctl" -D "$folder/data" -l "$folder/log" -w -o "-k '$folder' -c listen_addresses=''" start > /dev/null
ask() { "$bin/psql" -h "$folder" -d postgres -v ON_ERROR_STOP=1 -qAt -c "$1"; }

# a line is one column: no line has the bytes that are named as delimiter, quote and null
raw="format csv, delimiter E'\x01', quote E'\x02', null E'\x03'"
ask "create table sent (n serial primary key, line text); create table kept (n serial primary key, line text);"
ask "copy sent (line) from '$folder/lines' ($raw)"
ask "copy kept (line) from program '$program convert --form nfc < $folder/lines' ($raw)"

ask "select version()"
echo "rows                                   $(ask "select count(*) from kept")"
echo "rows that were in NFC as they came     $(ask "select count(*) from sent where line is nfc normalized")"
echo "rows that are in NFC as they are kept  $(ask "select count(*) from kept where line is nfc normalized")"
echo "rows for which the server's own normalize() answers otherwise:"
ask "select n, length(s.line) as sent, length(normalize(s.line)) as server, length(k.line) as kept
     from sent s join kept k using (n) where normalize(s.line) <> k.line order by n limit 10"
