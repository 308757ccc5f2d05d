#!/usr/bin/env bash
# Sends three messages through a rsyslogd of its own whose omprog runs nfstream, and shows what is logged: bash recipes/rsyslog.sh
# PROGRAM. Needs Debian's packages rsyslog and bsdutils; no root, and nothing outside a temporary folder.
set -euo pipefail
program=$(realpath "${1:?which nfstream?}")
PATH=$PATH:/usr/sbin
folder=$(mktemp -d)
trap 'kill "$(cat "$folder/pid" 2> /dev/null)" 2> /dev/null || true; rm -rf "$folder"' EXIT

cat > "$folder/conf" <<END
global(workDirectory="$folder")
module(load="imuxsock" SysSock.Use="off")
module(load="omprog")
input(type="imuxsock" Socket="$folder/socket" UseSpecialParser="off")
template(name="line" type="string" string="%msg%\n")
action(type="omprog" name="nfc" template="line" binary="$program convert --form nfc --replace --line-buffered" output="$folder/nfc.log")
END
rsyslogd -n -f "$folder/conf" -i "$folder/pid" &
for _ in $(seq 100); do [ -S "$folder/socket" ] && break; sleep 0.1; done

logger -u "$folder/socket" "user $(printf 'ab\303(') logged in"
logger -u "$folder/socket" "user $(printf 'Vie\314\202\314\243t') logged in"
logger -u "$folder/socket" "user $(printf 'q'; for _ in $(seq 40); do printf '\314\201'; done) logged in"
sleep 1
echo "after three messages:"
xxd "$folder/nfc.log"
kill "$(cat "$folder/pid")"
wait
