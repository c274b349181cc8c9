#!/bin/sh
# The time of an hour of sound: the program `listen` and minimodem's decoder on the
# same recording, in turns, each to its end. The recording is two calls of half an
# hour, 4,000 tide lines in all, sent by the program `send`; both must hear every one.
# usage: listen.sh [RATE [TURNS]]     48000 and 3 otherwise
# Needs the Debian packages minimodem and sox, and `.ci/build send listen` run before.
cd "$(dirname "$0")" || exit 2
rate=${1:-48000} turns=${2:-3}
send=../target/bin/send listen=../target/bin/listen
folder=$(mktemp -d) || exit 2
trap 'rm -r "$folder"' EXIT

i=0
while [ $i -lt 2000 ]; do
    echo 01010D000700C0000005019C88
    i=$((i + 1))
done >"$folder/text"
"$send" originate "$rate" <"$folder/text" >"$folder/half.wav" || exit 2
sox -V1 "$folder/half.wav" "$folder/half.wav" "$folder/hour.wav" || exit 2
echo "recording: $(sox --i -D "$folder/hour.wav") seconds at $rate"

# timed NAME COMMAND..: seconds of processor time, user and system
timed() {
    name=$1
    shift
    ( "$@" <"$folder/hour.wav" >"$folder/$name"; times >"$folder/times" )
    tail -n 1 "$folder/times" | awk -v name="$name" '{
        for (k = 1; k <= 2; k++) { split($k, t, /[ms]/); s += 60 * t[1] + t[2] }
        printf "%s: %.2f s\n", name, s
    }'
}

turn=0
while [ $turn -lt "$turns" ]; do
    timed listen "$listen" 7 answer
    timed minimodem minimodem --rx --quiet --mark 1270 --space 1070 --file "$folder/hour.wav" 300
    turn=$((turn + 1))
done
good=$(grep -cE '^[0-9]+ (0|34)$' "$folder/listen")
heard=$(grep -c '01010D000700C0000005019C88$' "$folder/minimodem")
echo "lines heard: listen $good, minimodem $heard"
[ "$good" = 4000 ] && [ "$heard" = 4000 ]
