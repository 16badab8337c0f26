#!/bin/sh
# Bytes copied per command, by kind: what a text with the command repeated copies more than one without it. By proof it is
# the program of day files; by script, that of scripts, which goes through the public calls and copies the State itself, too.
# usage: count.sh BEAMGANTRY REPLAY
set -eu
here=$(cd "$(dirname "$0")" && pwd)
day=$1 script=$2
room=$(mktemp -d)
trap 'rm -rf "$room"' EXIT
cc -O1 -fno-builtin -fno-tree-loop-distribute-patterns -shared -fPIC -o "$room/count.so" "$here/count.c"

# copied PROGRAM TEXT
copied() { LD_PRELOAD=$room/count.so "$1" < "$2" 2>&1 >/dev/null | tail -n 1; }

# more PROGRAM: what the whole copies more than the setup
more() { echo $(($(copied "$1" "$room/whole") - $(copied "$1" "$room/setup"))); }

# The text so many times, its line ends still written as \n
repeat() { TEXT=$1 awk -v n="$2" 'BEGIN { for (i = 0; i < n; i++) printf "%s", ENVIRON["TEXT"] }'; }

# texts SETUP COMMANDS
texts() {
    printf "$1" > "$room/setup"
    printf "$1$2" > "$room/whole"
}

# kind NAME SETUP COMMANDS HOW-MANY-COMMANDS
kind() {
    texts "$2" "$3"
    echo "$(more "$day") $(more "$script") $4" | awk -v n="$1" '{ printf "%-44s %9.0f %9.0f\n", n, $1 / $3, $2 / $3 }'
}

# The same of a command that day files have no word for
worded() {
    texts "$2" "$3"
    echo "$(more "$script") $4" | awk -v n="$1" '{ printf "%-44s %9s %9.0f\n", n, "", $1 / $2 }'
}

printf '%-44s %9s %9s\n' 'bytes copied per command' 'by proof' 'by script'
start='H,2,1,1\nS,0,1,1\nR,0,0,1000000000\nD,1,0,1000000000\n'
sells=$(repeat 'L,1,0,200,1,K\n' 101)
kind 'order without a trade' "$start" "$(repeat 'B,0,0,100,1,I\n' 1000)" 1000
kind 'order with one trade, and re-entry' "${start}L,1,0,200,1,K\n" "$(repeat 'B,0,0,200,1,I\nL,1,0,200,1,K\n' 500)" 1000
kind 'order of one trade, 101 waiting' "$start$sells" 'B,0,0,200,1,I\n' 1
kind 'order of 101 trades, 101 waiting' "$start$sells" 'B,0,0,200,101,I\n' 1
kind 'order refused (7)' "$start" "$(repeat 'B,0,0,100,10001,I\n' 1000)" 1000
kind 'order refused (14)' "$start" "$(repeat 'B,1,0,100,1,I\n' 1000)" 1000
kind 'order refused (15)' "$start" "$(repeat 'B,0,0,100,1,A\n' 1000)" 1000
kind 'increase' "$start" "$(repeat 'R,0,0,1\n' 1000)" 1000
kind 'decrease' "$start" "$(repeat 'W,0,0,1\n' 1000)" 1000
kind 'cancellation' "$start$(repeat 'L,1,0,200,1,K\n' 100)" "$(seq -f 'X,1,%.0f\n' 100 | tr -d '\n')" 100
kind 'cancellation refused (16)' "$start" "$(repeat 'X,0,1\n' 1000)" 1000
kind 'group of 8, one trade each' "${start}L,1,0,200,10000,K\n" "$(repeat "G,0,8\\n$(repeat 'M,B,0,200,1\n' 8)" 100)" 100
kind 'start of closing, 64 waiting' "$start$(repeat 'L,1,0,200,1,K\n' 64)" 'C\n' 1
traded="${start}L,1,0,200,1,K\nB,0,0,200,1,K\nC\n"
kind 'closing order' "$traded" "$(repeat 'P,0,B,0,1\n' 100)" 100
kind "session's end, 128 waiting" "$traded$(repeat 'P,0,B,0,1\nP,1,L,0,1\n' 64)" 'Z\n' 1
worded 'start of collecting' "$start" 'COLLECT\n' 1
worded 'end of collecting, 128 waiting' "${start}COLLECT\\n$(repeat 'B,0,0,200,1,K\nL,1,0,200,1,K\n' 64)" 'AUCTION\n' 1
offers=$(repeat 'OFFER,1,L,0,100,1,500,1\n' 60)
deals="$start$offers$(repeat 'OFFER,0,B,0,100,1,500,1\n' 60)C\\nZ\\n"
worded 'offer that waits' "$start" "$offers" 60
worded 'offer that is met' "$start$offers" "$(repeat 'OFFER,0,B,0,100,1,500,1\n' 60)" 60
worded 'new day, 60 deals open' "$deals" 'DAY,1\n' 1
worded 'second part' "${deals}DAY,1\\n" "$(repeat 'SECOND,1\n' 60)" 60
kind 'malformed line' "$start" "$(repeat 'Y\n' 1000)" 1000
