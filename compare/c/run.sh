#!/bin/sh
# Builds hear_wav.c over the port's static library (`.ci/build ffi`), has it
# hear line.wav, and compares what it prints with line.out; then gives it words
# that it must not take. MORKHETTA_LIB may name another library, with a path seen
# from the folder above.
set -e
cd "$(dirname "$0")/.."
library=${MORKHETTA_LIB:-../target/staticlib/libffi.a}
folder=$(mktemp -d)
trap 'rm -r "$folder"' EXIT
${CC:-cc} -std=c99 -Wall -Wextra -Werror -O2 -I../include -o "$folder/hear_wav" c/hear_wav.c "$library"
for role in answer 1; do
    "$folder/hear_wav" c/line.wav 7 $role >"$folder/out"
    diff c/line.out "$folder/out"
done
# The other end's tones: no line, and no reading.
for role in originate 0; do
    [ "$("$folder/hear_wav" c/line.wav 7 $role)" = R ]
done
for words in "7 2" "7 Answer" "7 1x" "7 -1" "x 1" "7x 1" "65536 1" "0 1"; do
    if "$folder/hear_wav" c/line.wav $words >"$folder/out" 2>"$folder/said"; then
        echo "hear_wav: takes $words"
        exit 1
    fi
    [ ! -s "$folder/out" ] && [ "$(wc -l <"$folder/said")" = 1 ]
done
echo "hear_wav: as it must be"
