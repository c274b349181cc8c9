#!/bin/sh
# Measures how much stack the library's functions need. MORKHETTA_LIB as for run.sh.
set -e
cd "$(dirname "$0")/.."
library=${MORKHETTA_LIB:-../target/staticlib/libffi.a}
folder=$(mktemp -d)
trap 'rm -r "$folder"' EXIT
${CC:-cc} -std=c99 -Wall -Wextra -Werror -O2 -pthread -I../include -o "$folder/stack" c/stack.c "$library"
"$folder/stack"
