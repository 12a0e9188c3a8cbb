#!/usr/bin/env bash
# Runs a recorded client and server of the demo with socat between them, and has the connection judged by its bytes and by the
# logs of both: each has to be a yes, also where the two files change places, with as many deliveries, and so has `check` of the
# logs that explain the connection.
#
#     wire.sh PROGRAM CLIENT SERVER      PROGRAM is a built vataudit
#
# It ends with 0 where all is so, with 1 where something isn't, and with 2 where socat is missing.
set -euo pipefail
program="$(realpath "$1")" client="$(realpath "$2")" server="$(realpath "$3")"
differ() { echo "$*"; exit 1; }
command -v socat > /dev/null || { echo "nothing tested: missing socat (Debian: apt-get install socat)"; exit 2; }
room="$(mktemp -d)"
trap 'rm -rf "$room"' EXIT
cd "$room"

# until_there FILE: waits until a socket is there
until_there() { while [ ! -S "$1" ]; do sleep 0.1; done; sleep 0.5; }
"$server" unix:back > said 2>&1 &
until_there back
socat -r a.bin -R b.bin UNIX-LISTEN:front UNIX-CONNECT:back 2>> said &
until_there front
"$client" unix:front >> said 2>&1 || { cat said; differ "the client ended with $?"; }
wait || true

echo '{"logs": ["client.log", "server.log"], "links": [[0, 1, 2]]}' > case.json
recorded="$("$program" --quiet check case.json)" || differ "check of the logs: $recorded"
wire="$("$program" --quiet wire a.bin b.bin --out explained)" || differ "wire: $wire"
[[ "$wire" =~ ^yes\ frames\ [0-9]+\ [0-9]+\ delivered\ [0-9]+$ ]] || differ "wire: $wire"
exchanged="$("$program" --quiet wire b.bin a.bin)" || differ "wire, exchanged: $exchanged"
explained="$("$program" --quiet check explained/case.json)" || differ "check of the logs of wire: $explained"
delivered() { grep -o 'delivered [0-9]*' <<< "$1"; }
[ "$(delivered "$wire")" = "$(delivered "$recorded")" ] || differ "wire: $wire; check of the logs: $recorded"

# socat wrote no message that the logs don't have; what was under way when the client left it may lack.
sent() { "$program" records "$1" | grep -c '^[0-9]* send connection 0 '; }
frames() { "$program" frames "$1" | wc -l; }
[ "$(frames a.bin)" -le "$(sent client.log)" ] || differ "the client sent $(sent client.log) messages, socat wrote $(frames a.bin)"
[ "$(frames b.bin)" -le "$(sent server.log)" ] || differ "the server sent $(sent server.log) messages, socat wrote $(frames b.bin)"
echo "$wire; $recorded"
