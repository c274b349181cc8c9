#!/bin/sh
# Builds each slip of again/slips.rs into the second copy of the original, as a
# library in the port's place, and runs the comparison, which must find it, and
# the recorded calls, whose answers show most slips and not all. A slip counts
# as found only where a difference is printed; what can't be built or run is an
# error (2). Arguments: the slips to try (all by default). Takes up to a minute a
# slip; exit 1 where the comparison does not find one.
cd "$(dirname "$0")" || exit 2
to="--release --quiet --target-dir target/slips"
library=$PWD/target/slips/release/libagain.so
out=$(mktemp) || exit 2
trap 'rm -f "$out"' EXIT

# with_slip SLIP: builds the library; none where SLIP is empty.
with_slip() {
    MODEM_SLIP=$1 cargo rustc $to --package again --crate-type cdylib || {
        echo "$1: not built"
        exit 2
    }
}

# differs COMMAND..: its first difference in $words; status 1 where there is none.
differs() {
    LD_LIBRARY_PATH=$(dirname "$library") target/slips/release/compare "$@" >"$out" 2>&1
    status=$?
    words=$(grep -m 1 'DIFFERENCE: ' "$out" | cut -c 1-150)
    case "$status $words" in
        "0 " | "3 ") return 1 ;;
        "1 "?*) return 0 ;;
    esac
    cat "$out"
    echo "$slip: $* ended with $status"
    exit 2
}

with_slip ""
MORKHETTA_LIB=$library cargo build $to --features slips || exit 2
slip="no slip"
if differs replay || differs compare --quick --cases 20; then
    echo "without a slip: $words"
    exit 2
fi

tried=0 found=0 shown=0
for slip in ${*:-$(sed -n 's/^ *name: "\(.*\)",$/\1/p' again/slips.rs)}; do
    with_slip "$slip"
    tried=$((tried + 1))
    if differs compare --quick; then
        found=$((found + 1))
        echo "$slip: found: $words"
    else
        echo "$slip: NOT FOUND"
    fi
    if differs replay; then
        shown=$((shown + 1))
        echo "$slip: recorded answers: $words"
    else
        echo "$slip: recorded answers: the same"
    fi
done
echo "$tried slips: $found found by the comparison, $shown shown by the recorded answers"
[ $found -eq $tried ]
