#!/bin/sh
# Has the port hear another implementation of Bell 103, and be heard by it.
# minimodem renders a text, sox resamples it, and the program `replay` hears it.
# Every byte must be there, and nothing else; and the original must answer each
# write alike. Then the program `send` sends the text at each rate, and from the
# table, and minimodem must hear it, behind the training character and the line end
# of a call.
# Needs the Debian packages minimodem, sox and xxd, cargo, and in the root
# `.ci/build replay send ffi` run before. Takes about a minute;
# minimodem sends its idle carrier in real time.
cd "$(dirname "$0")" || exit 2
replay=../target/bin/replay send=../target/bin/send
folder=$(mktemp -d) || exit 2
trap 'rm -r "$folder"' EXIT
cargo build --release --quiet --features port || exit 2
printf 'CQ CQ 0123456789 the quick brown fox jumps over the lazy dog\n01010D000700C0000005019C88\n' >"$folder/text"
{ printf 'U\n'; cat "$folder/text"; } >"$folder/call"
failed=0

# render MARK SPACE RATE FILE: idle carrier, the text, idle carrier.
render() {
    (sleep 0.5; cat "$folder/text"; sleep 0.3) |
        minimodem --tx --tx-carrier --quiet --volume 0.5 --float-samples \
            --mark "$1" --space "$2" --samplerate "$3" --file "$4" 300
}

# hear FILE RATE ROLE WORDS
hear() {
    sox -V1 "$1" -t f32 -c 1 "$folder/samples" || exit 2
    target/release/compare hear "$folder/samples" "$2" "$3" "$folder" || exit 2
    "$replay" <"$folder/stdin" >"$folder/heard"
    sed -n 's/.*, bytes\(.*\), events.*/\1/p' "$folder/heard" | tr -d ' \n' | xxd -r -p >"$folder/bytes"
    like=differs
    cmp -s "$folder/heard" "$folder/stdout" && like=equal
    if cmp -s "$folder/text" "$folder/bytes" && [ $like = equal ]; then
        echo "$4, heard at $2: all $(wc -c <"$folder/text") bytes, original $like"
    else
        echo "$4, heard at $2: NOT AS SENT, original $like"
        failed=$((failed + 1))
    fi
}

# sent MARK SPACE RATE ROLE [table]
sent() {
    "$send" "$4" "$3" ${5:+"$5"} <"$folder/text" >"$folder/sent.wav" || exit 2
    minimodem --rx --quiet --mark "$1" --space "$2" --file "$folder/sent.wav" 300 >"$folder/bytes"
    if cmp -s "$folder/call" "$folder/bytes"; then
        echo "$1/$2, sent at $3${5:+ from the $5}: all $(wc -c <"$folder/call") bytes heard by minimodem"
    else
        echo "$1/$2, sent at $3${5:+ from the $5}: NOT AS SENT"
        failed=$((failed + 1))
    fi
}

# Role 1 answers, and hears the tones of the end that dials; role 0 the others.
for tones in "1270 1070 1 originate" "2225 2025 0 answer"; do
    set -- $tones
    for rate in 8000 48000; do
        render "$1" "$2" $rate "$folder/$rate.wav"
    done
    hear "$folder/8000.wav" 8000 "$3" "$1/$2, rendered at 8000"
    hear "$folder/48000.wav" 48000 "$3" "$1/$2, rendered at 48000"
    for rate in 8000 11025 16000 22050 32000 44100; do
        sox -V1 "$folder/48000.wav" -r $rate "$folder/other.wav" || exit 2
        hear "$folder/other.wav" $rate "$3" "$1/$2, rendered at 48000"
    done
    for rate in 8000 8001 9999 11025 16000 22050 32000 44100 47999 48000; do
        sent "$1" "$2" $rate "$4"
    done
    sent "$1" "$2" 8000 "$4" table
done
echo "$failed not as sent"
[ $failed -eq 0 ]
