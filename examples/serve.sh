#!/usr/bin/env bash
# Two parties at one server, over `nc -N -U` (netcat-openbsd). The first runs two tasks, of which the second reads
# what the first wrote; the second party makes an array of the same name, and sees its own.
#
#   examples/serve.sh crates/omptaskd/out/omptaskd
#
# What it prints is in serve.txt: the replies, and last the units that the server counted.
program=${1:?which program}
socket=$(mktemp -d)/socket
"$program" serve --socket "$socket" --count 2 first second > "$socket.usage" &
until [ -S "$socket" ]; do sleep 0.01; done # the file is there once the server can be asked

nc -N -U "$socket" <<'LINES'
["hello","first"]
["new","a",3]
["put","a",0,[1,2,3]]
["run",["program",[["a",0,3]],[["task",[["out",["a",0,1]]],[["set",["c","a",0],7]]],["task",[["in",["a",0,1]],["out",["a",1,1]]],[["set",["c","a",1],["+",["c","a",0],1]]]],["wait"]]]]
["bye"]
LINES
nc -N -U "$socket" <<'LINES'
["hello","second"]
["new","a",2]
["get","a",0,2]
["bye"]
LINES
wait
cat "$socket.usage"
