#!/bin/bash
# Builds missed.cpp and holds `globex session` to what QuickFIX expects, over socat: a firm takes all its lines, some, one and none, of
# stored reports and of Rejects and refused cancels; then what the client is told if its numbers are wrong. Ends with a status other than
# 0 if anything differs. It needs g++, libquickfix-dev, socat, python3, QuickFIX's FIX42.xml and the program:
#
#     examples/quickfix/check-session.sh FIX42.xml PROGRAM
set -u

fail() {
    echo "check-session: $1" >&2
    exit 1
}

here=$(CDPATH='' cd -- "$(dirname -- "$0")" && pwd) || exit 1
top=$(CDPATH='' cd -- "$here/../.." && pwd) || exit 1
tools=$top/tools
[ $# -eq 2 ] && [ -r "$1" ] && [ -x "$2" ] || fail 'the words are the path of FIX42.xml and that of the program'
globex=$(realpath -- "$2")
folder=$(mktemp -d) || exit 1
trap 'rm -rf -- "$folder"' EXIT
trap 'exit 1' HUP INT TERM
"$here/merge.py" "$1" >"$folder/MERGED.xml" || fail 'the dictionary was not merged'
g++ -std=c++14 -O2 -Wall -Wextra -o "$folder/missed" "$here/missed.cpp" -lquickfix -lpthread || fail 'the program was not built'

# Lines without what differs in a line again.
strip_again() {
    sed 's/|9=[0-9]*|/|/; s/|43=Y|/|/; s/|52=[^|]*|/|/; s/|10=[0-9]*|$/|/'
}

# A port that is free now.
free_port() {
    python3 -c 'import socket; s = socket.create_server(("127.0.0.1", 0)); print(s.getsockname()[1])'
}

# Serves one connection, and has a firm take its lines from a number on. The lines are left in `taken`, what is said in `said`.
connect() {
    local firm=$1 number=$2 first=$3 port turn
    port=$(free_port)
    socat -t 60 "TCP-LISTEN:$port,bind=127.0.0.1,reuseaddr" EXEC:"$globex session" 2>socat.log &
    for turn in $(seq 100); do
        # the port, as /proc writes it, listens
        grep -q "$(printf ':%04X 00000000:0000 0A' "$port")" /proc/net/tcp && break
        sleep 0.05
    done
    "$folder/missed" "$folder/MERGED.xml" 127.0.0.1 "$port" "$firm" GX "$number" "$first" >taken 2>said
    status=$?
    wait $!
}

# A firm takes its lines from a number on: all that there are, as they were sent.
take() {
    local firm=$1 number=$2 first=$3 count
    connect "$firm" "$number" "$first"
    [ $status -eq 0 ] || { cat said >&2; fail "$firm from $first: status $status"; }
    "$tools/frames" show sent | grep "|56=$firm|" | tail -n +"$first" | strip_again >wanted
    count=$(wc -l <wanted)
    [ "$("$tools/frames" show taken | grep -c '|43=Y|')" -eq "$count" ] || fail "$firm from $first: not $count lines with 43=Y"
    "$tools/frames" show taken | strip_again | cmp - wanted || fail "$firm from $first: the lines differ"
    echo "$firm from $first: $count lines, as they were sent"
}

# A firm whose numbers are wrong is told so.
refuse() {
    connect "$1" "$2" "$3"
    [ $status -eq 1 ] || fail "$1 with $2 from $3: status $status"
    grep -qxF "missed: $4" said || { cat said >&2; fail "$1 with $2 from $3: this is not what is said"; }
    echo "$1 with $2 from $3: $(cat said)"
}

# A folder with a journal of these messages, and the reports in `sent`.
serve() {
    mkdir "$folder/$1" && cd "$folder/$1" || exit 1
    cp -- "$top/examples/$2/product.toml" . && "$tools/frames" make --unchecked >orders || exit 1
    "$globex" run <orders >sent || fail "$1: the run ended with $?"
    [ -s sent ] || fail "$1: the run sent nothing"
    cp journal.gxj was
}

serve stored Q <"$top/examples/Q/orders.txt"
take AAA 3 1
take AAA 3 2
take BBB 2 1
lines=$("$tools/frames" show sent | grep -c '|56=DDD|')
take DDD 2 1
take DDD 2 "$lines"
take DDD 2 $((lines + 1))
refuse AAA 2 1 'the firm is logged out: MSGSEQNUM TOO LOW'
refuse AAA 9 1 'NUMBER is too high; the next one is 3'
refuse AAA 3 99 'not all lines came'
cmp journal.gxj was || fail 'the journal has changed'

# A refused cancel and Rejects come again, one of them without a time of its own.
serve refusals F <<'END'
35=D|49=AAA|56=GX|34=1|52=20240102-09:30:00|11=a1|55=ESZ4|54=2|38=10|40=2|44=100.00|59=0|
35=D|49=AAA|56=GX|34=2|52=20240102-09:30:02.500|11=a1|55=ESZ4|54=2|38=10|40=2|44=100.00|59=0|
35=F|49=AAA|56=GX|34=3|52=20240102-09:30:03|11=a2|41=zz|
35=D|49=AAA|56=GX|34=4|52=20240102-09:30:04|11=x|
35=D|49=AAA|56=GX|34=5|52=now|11=x|
35=h|49=GX|56=GX|34=1|52=20240102-16:00:00|340=3|
END
take AAA 5 1
take CCC 1 1
cmp journal.gxj was || fail 'the journal has changed'
echo
echo 'check-session: QuickFIX takes the lines of each firm, and the sessions stay up'
