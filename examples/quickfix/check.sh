#!/bin/sh
# Merges the dictionary, builds fills.cpp, and runs it over the stored reports. Compares the fills that it prints with those
# that awk finds in the text of the reports. Then it shows what the program does with a Reject without a time, and what it
# refuses. Ends with a status other than 0 if anything differs. It needs g++, libquickfix-dev, python3 and QuickFIX's FIX42.xml:
#
#     examples/quickfix/check.sh FIX42.xml
set -u

fail() {
    echo "check: $1" >&2
    exit 1
}

here=$(CDPATH='' cd -- "$(dirname -- "$0")" && pwd) || exit 1
top=$here/../..
[ $# -eq 1 ] && [ -r "$1" ] || fail 'the word is the path of FIX42.xml'
bare=$1
folder=$(mktemp -d) || exit 1
trap 'rm -rf -- "$folder"' EXIT
trap 'exit 1' HUP INT TERM
merged=$folder/merged.xml

"$here/merge.py" "$bare" >"$merged" || fail 'the dictionary was not merged'
g++ -std=c++14 -O2 -Wall -Wextra -o "$folder/fills" "$here/fills.cpp" -lquickfix || fail 'the program was not built'

# Text as bytes: `|` stands for SOH, and the line feeds go.
bytes() {
    tr -d '\n' | tr '|' '\001'
}

# Bytes as text: a line for each frame.
lines() {
    tr '\001' '|' | sed 's/|8=FIX\.4\.2|/|\
8=FIX.4.2|/g'
}

# The frame of a body, both as text.
framed() {
    front="8=FIX.4.2|9=${#1}|$1"
    sum=$(printf '%s' "$front" | bytes | od -An -v -tu1 |
        awk '{ for (i = 1; i <= NF; i++) all += $i } END { printf "%03d", all % 256 }')
    printf '%s\n' "${front}10=$sum|"
}

# The lines of the fills, from the text of the reports.
fills_by_awk() {
    awk -F '|' '
        {
            split("", value)
            for (i = 1; i <= NF; i++) {
                at = index($i, "=")
                if (at) value[substr($i, 1, at - 1)] = substr($i, at + 1)
            }
        }
        value[35] == "8" && (value[150] == "1" || value[150] == "2") {
            side = value[54] == "1" ? "B" : "S"
            print value[9002], value[9001], value[55], side, value[32] "@" value[31], "#" value[37], value[56], value[11]
        }'
}

# Runs the program over the text in $folder/text. All of it has to be valid, and its fills have to be those of the text.
accept() {
    bytes <"$folder/text" >"$folder/reports"
    "$folder/fills" "$merged" "$folder/reports" >"$folder/got" 2>"$folder/notes" ||
        { cat -- "$folder/notes" >&2; fail "$1: the program refused the reports"; }
    fills_by_awk <"$folder/text" >"$folder/wanted"
    cmp -- "$folder/got" "$folder/wanted" || fail "$1: these are not the fills of the reports"
    "$folder/fills" "$merged" <"$folder/reports" 2>/dev/null | cmp -- - "$folder/wanted" || fail "$1: standard input differs"
    by_type=$(grep -c '|150=[12]|' "$folder/text")
    by_step=$(grep -c '|9001=' "$folder/text")
    printed=$(wc -l <"$folder/got")
    [ "$printed" -gt 0 ] && [ "$printed" -eq "$by_type" ] && [ "$printed" -eq "$by_step" ] ||
        fail "$1: $printed fills are printed, $by_type reports have 150=1 or 150=2, and $by_step have 9001"
    echo "$1: $(wc -l <"$folder/text") reports, $printed fills"
}

# Runs the program over the bytes in $folder/reports. It has to end with status 1 and to give this reason.
refuse() {
    "$folder/fills" "${3:-$merged}" <"$folder/reports" >"$folder/got" 2>"$folder/reason"
    status=$?
    [ "$status" -eq 1 ] || fail "$1: the program ended with status $status"
    grep -qxF "fills: $2" "$folder/reason" || { cat -- "$folder/reason"; fail "$1: this is not the reason"; }
    echo "$1: $(cat -- "$folder/reason")"
}

for name in A C F K O Q T; do
    cp -- "$top/examples/$name/reports.txt" "$folder/text" || exit 1
    accept "$name"
done
lines <"$top/crates/globex_cli/stdout" >"$folder/text"
echo >>"$folder/text"
accept first-run
cmp -- "$folder/reports" "$top/crates/globex_cli/stdout" || fail 'first-run: the text does not give the stored bytes'
cat -- "$folder/got"

# A Reject without a time between two reports: all fills are there, and standard error has a line for it.
echo
reject='35=3|34=1|49=GX|52=00000000-00:00:00|56=UNKNOWN|45=0|371=49|373=9|58=SENDER|'
stored=$top/examples/F/reports.txt
first_size=$(head -n 1 "$stored" | bytes | wc -c)
{ head -n 1 "$stored" && framed "$reject" && tail -n +2 "$stored"; } >"$folder/text"
accept 'F with a Reject without a time'
cat -- "$folder/notes"
line="fills: message 2 at byte $first_size is a Reject without a time: SENDER"
[ "$(grep -cxF "$line" "$folder/notes")" -eq 1 ] || fail 'the Reject has no line, or another one'

# What is refused.
echo
framed '35=3|34=1|49=GX|52=00000000-00:00:01|56=UNKNOWN|45=0|371=49|373=9|58=SENDER|' | bytes >"$folder/reports"
refuse 'a Reject with another bad time' 'message 1 at byte 0: tag 52: Incorrect data format for value: 00000000-00:00:01'
framed '35=3|34=1|49=GX|52=00000000-00:00:00|56=UNKNOWN|45=0|371=49|373=99|58=SENDER|' | bytes >"$folder/reports"
refuse 'a Reject without a time, and with a bad 373' \
    'message 1 at byte 0: tag 373: Value is incorrect (out of range) for this tag'
framed '35=9|34=5|49=GX|52=00000000-00:00:00|56=AAA|37=NONE|11=a3|41=a1|39=8|434=1|102=1|58=UNKNOWN|' | bytes >"$folder/reports"
refuse 'another message without a time' 'message 1 at byte 0: tag 52: Incorrect data format for value: 00000000-00:00:00'
bytes <"$stored" >"$folder/reports"
refuse 'the dictionary that is not merged' 'message 1 at byte 0: tag 9003: Invalid tag number' "$bare"
body=$(sed -n '$s/.*|9=[0-9]*|\(.*|\)10=[0-9]*|$/\1/p' "$stored" | sed 's/|9001=[A-Z]*|/|9001=LIFO|/')
framed "$body" | bytes >"$folder/reports"
refuse 'an unknown step' 'message 1 at byte 0: tag 9001: Value is incorrect (out of range) for this tag'
framed "$(printf '%s' "$body" | sed 's/|9001=LIFO|/|/')" | bytes >"$folder/reports"
refuse 'a fill without a step' 'message 1 at byte 0: tag 9001: Field not found'
sed '1s/|10=053|$/|10=054|/' "$stored" | bytes >"$folder/reports"
refuse 'a wrong checksum' 'message 1 at byte 0: Invalid message: Expected CheckSum=53, Received CheckSum=54'
bytes <"$stored" | sed 's/.$//' >"$folder/reports"
before=$(sed '$d' "$stored" | bytes | wc -c)
refuse 'a stream that is cut off' "message $(wc -l <"$stored") at byte $before: the input ends within it"
[ "$(wc -l <"$folder/got")" -eq $(($(grep -c '|9001=' "$stored") - 1)) ] || fail 'the fills before the cut are not printed'
echo
echo 'check: every fill of the stored reports, as awk finds it'
