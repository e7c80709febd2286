#!/bin/bash
# Runs each recipe of docs/OPERATING.md and docs/CLIENTS.md with a built program, and compares what it prints with the page.
#
#     docs/check-recipes.sh PROGRAM [ID]..
#
# A recipe is a heading with an ID. Its blocks marked `sh` are run in their order, in one shell, in a new folder that a function
# here prepares. A block without a mark after one of these is what that one prints. A function here then looks at what is left. The
# IDs that are no recipe try what docs/OPERATING.md says of the program. Without an ID all are tried. Ends with 1 and names them if some
# differ. Needs the GNU tools, Python 3.11, strace and tools/; as root it also mounts a small file system in memory.
set -u

top=$(CDPATH='' cd -- "$(dirname -- "$0")/.." && pwd) || exit 1
tools=$top/tools
pages=("$top/docs/OPERATING.md" "$top/docs/CLIENTS.md")
checks=(two-runs closed-streams wrong-words reasons lower-limit no-blocking size-limit read-only strange-journals removed-journal
    socket-endings session-endings readers folder-synced)

if [ $# -lt 1 ] || [ ! -x "$1" ]; then
    echo "check-recipes: usage: docs/check-recipes.sh PROGRAM [ID].." >&2
    exit 1
fi
globex=$(realpath -- "$1")
shift
work=$(mktemp -d) || exit 1
tidy() {
    local folder
    for folder in $(awk -v work="$work/" 'index($2, work) == 1 { print $2 }' /proc/mounts); do umount -- "$folder"; done
    rm -rf -- "$work"
}
trap tidy EXIT
trap 'exit 1' HUP INT TERM
export top tools globex LC_ALL=C

# ---- taking recipes out of the pages

recipes() {
    sed -n 's/^### `\([a-z-]*\)`.*/\1/p' "${pages[@]}"
}

# A recipe as a shell script. What block number N prints goes to LOG/N.out, and what the page says of it is LOG/N.want.
script_of() {
    awk -v id="$1" -v logs="$2" '
        FNR == 1 { inside = 0 }
        /^##/ { inside = index($0, "### `" id "`") == 1 }
        !inside { next }
        /^ *```sh$/ { number++; indent = index($0, "`") - 1; kind = "run"; print "{"; next }
        /^ *```$/ && kind == "run" { printf "} >%s/%d.out 2>&1\n", logs, number; kind = "ran"; next }
        /^ *```$/ && kind == "ran" { printf "cat >%s/%d.want <<\"END OF BLOCK\"\n", logs, number; kind = "want"; next }
        /^ *```$/ && kind == "want" { print "END OF BLOCK"; kind = ""; next }
        kind == "run" || kind == "want" { print substr($0, indent + 1); next }
        kind == "ran" && /[^ ]/ { kind = "" }
    ' "${pages[@]}"
}

# ---- what the functions share

said=0
fail() {
    echo "    $*" >&2
    said=1
}

expect() {
    [ "$1" = "$2" ] || fail "$3: $1, and not $2"
}

same() {
    cmp -- "$1" "$2" >&2 || fail "$1 is not $2"
}

# The product of an example in the folder, and its orders.
take_example() {
    cp -- "$top/examples/$1/product.toml" product.toml
    "$tools/frames" make "$top/examples/$1/orders.txt" >orders
}

# So many made messages of the product in the folder, from a first number.
made() {
    local folder
    folder=$(mktemp -d "$work/made.XXXXXX")
    cp product.toml "$folder"
    (cd "$folder" && "$globex" drill --first "$1" --count "$2" >/dev/null && "$tools/journal" messages journal.gxj)
}

count_before() {
    if [ -e journal.gxj ]; then "$tools/journal" count journal.gxj; else echo 0; fi >before
}

# Runs over `orders`, and expects a status.
serve() {
    count_before
    "$globex" run <orders >>sent 2>>errors
    expect $? "${1:-0}" 'the status of the run'
}

# An earlier session of 100 messages, and 400 further ones in `orders`.
two_sessions() {
    take_example F
    made 1 100 >orders
    serve
    cp orders earlier
    made 2 400 >orders
    count_before
}

# Waits until a file has more than so many bytes.
wait_for() {
    local turn
    for turn in $(seq 200); do
        [ "$(wc -c <"$1")" -gt "$2" ] && return
        sleep 0.02
    done
    fail "nothing came to $1"
}

# A run, `run`, that reads from descriptor 3 and has served the first of the orders.
serve_first_order() {
    take_example F
    mkfifo in
    "$globex" run <in >sent 2>errors &
    run=$!
    exec 3>in
    head -c "$("$tools/frames" offset 2 orders)" orders >&3
    wait_for sent 100
}

# The journal keeps just what was handed in, once, and `sent` has just its reports.
nothing_lost_or_doubled() {
    "$tools/journal" messages journal.gxj >kept
    cat "$@" | cmp - kept >&2 || fail 'the journal does not keep just the messages that were handed in'
    "$globex" replay | cmp - sent >&2 || fail 'sent is not what replay sends'
}

in_bytes() {
    wc -c <"$1"
}

# ---- recipes: how the folder is prepared, and what is left

prepare_first-run() { :; }
look_first-run() {
    "$tools/frames" show sent | cmp - "$top/examples/F/reports.txt" >&2 || fail 'these are not the stored reports'
}

prepare_session() {
    two_sessions
    cp orders input
}
look_session() {
    expect "$(cat "$log/3.out")" 400 'messages kept'
    nothing_lost_or_doubled earlier input
}

prepare_live() {
    take_example F
    rm orders
}
look_live() {
    expect "$("$tools/frames" count sent)" 4 'reports'
    nothing_lost_or_doubled orders
}

prepare_market() {
    take_example F
    "$tools/frames" make --product product.toml >orders <<'END'
35=D|49=AAA|56=GX|34=1|52=20240102-09:30:00|11=a1|55=ESZ4|54=2|38=10|40=2|44=100.00|59=0|
35=D|49=BBB|56=GX|34=1|52=20240102-09:30:01|11=b1|55=ESZ4|54=1|38=4|40=2|44=100.00|59=0|
END
    mkfifo in
    "$globex" run <in >sent 2>errors &
    run=$!
    exec 3>in
    cat orders >&3
    wait_for sent 500
    cp journal.gxj was
}
look_market() {
    same journal.gxj was
    exec 3>&-
    wait $run
    expect $? 0 'the status of the run'
    nothing_lost_or_doubled orders
}

prepare_locked() {
    take_example F
    mkfifo in
    "$globex" run <in >sent &
    echo $! >pid
    exec 3>in
    cat orders >&3
    wait_for sent 100
    cp journal.gxj was
}
look_locked() {
    same journal.gxj was
    expect "$(cat "$log/2.out")" "$(cat pid)" 'who has the lock'
    kill -9 "$(cat pid)"
    wait "$(cat pid)" 2>/dev/null
    exec 3>&-
    "$globex" checkpoint || fail 'the lock outlives its process'
}

prepare_checkpoint() {
    take_example F
    serve
}
look_checkpoint() {
    "$globex" replay | cmp - sent >&2 || fail 'a checkpoint changes what replay sends'
}

prepare_close() {
    cp "$top/examples/F/product.toml" product.toml
    "$tools/frames" make --product product.toml >orders <<'END'
35=D|49=AAA|56=GX|34=1|52=20240102-09:30:00|11=a1|55=ESZ4|54=2|38=10|40=2|44=100.00|59=0|
35=D|49=BBB|56=GX|34=1|52=20240102-09:30:01|11=b1|55=ESZ4|54=2|38=5|40=2|44=100.00|59=1|
35=D|49=DDD|56=GX|34=1|52=20240102-09:30:02|11=d1|55=ESZ4|54=1|38=9|40=4|44=100.20|99=100.10|59=3|
END
    serve
}
look_close() {
    "$globex" replay | cmp - sent >&2 || fail 'sent is not what replay sends'
    # The market is open: the order that has stayed can trade. After another close nothing can, whether a start begins with an image
    # or not.
    buy_one c1
    expect "$("$globex" fills | wc -l)" 2 'fills in the open market'
    echo '35=h|49=GX|56=GX|34=3|52=20240103-16:00:00|340=03|' | "$tools/frames" make --product product.toml >orders
    serve
    buy_one c2
    "$globex" checkpoint || fail 'no checkpoint in a closed market'
    buy_one c3
    expect "$("$tools/frames" show sent | grep -c '|58=CLOSED|')" 2 'orders refused in the closed market'
    expect "$("$globex" fills | wc -l)" 2 'fills in the closed market'
}

# CCC buys a lot at 100.00, under an id.
buy_one() {
    echo "35=D|49=CCC|56=GX|34=1|52=20240103-12:00:00|11=$1|55=ESZ4|54=1|38=1|40=2|44=100.00|59=0|" |
        "$tools/frames" make --product product.toml >orders
    serve
}

prepare_amend() {
    prepare_close
}
look_amend() {
    local word
    "$globex" replay | cmp - sent >&2 || fail 'sent is not what replay sends'
    expect "$("$globex" book | wc -l)" 2 'lines of the book'
    cp journal.gxj was
    "$globex" amend || fail 'the same file cannot be put in again'
    same journal.gxj was
    # Each command wants the file that the journal has, and a firm cannot be taken out again.
    mkdir former && cp former.toml former/product.toml && cp journal.gxj former/
    for word in run replay fills ledger levels book session opening checkpoint 'drill --first 1 --count 1'; do
        (cd former && "$globex" $word </dev/null >/dev/null 2>&1)
        expect $? 11 "the status of $word with the former file"
    done
    (cd former && "$globex" amend 2>err)
    expect $? 13 'the status of amend with the former file'
    expect "$(tail -n 1 former/err)" 'globex: status 13 at 3 after 0 messages' 'the line of amend with the former file'
    same former/journal.gxj was
    # The firm that came later trades.
    echo "35=D|49=EEE|56=GX|34=1|52=20240108-12:00:00|11=e1|55=ESZ4|54=1|38=1|40=2|44=100.00|59=0|" |
        "$tools/frames" make --product product.toml >orders
    serve
    expect "$("$globex" fills | wc -l)" 2 'fills after the amendment'
    "$globex" replay | cmp - sent >&2 || fail 'sent is not what replay sends after the amendment'
}

prepare_day() {
    cp "$top/examples/F/product.toml" product.toml
}
look_day() {
    nothing_lost_or_doubled orders
    expect "$("$tools/frames" show orders | grep -c '|49=AAA|')" 9 'messages of AAA'
}

# A journal of the stored orders, and a copy of it, which no session changes.
prepare_logons() {
    take_example F
    serve
    cp journal.gxj was
}
look_logons() {
    same journal.gxj was
    "$globex" replay | cmp - sent >&2 || fail 'a session changes what replay sends'
}

prepare_missed() {
    prepare_logons
}
look_missed() {
    local firm number next
    look_logons
    "$tools/frames" make >asked <<'END'
35=A|49=AAA|56=GX|34=3|52=20240103-08:05:00|98=0|108=30|
35=2|49=AAA|56=GX|34=4|52=20240103-08:05:01|7=4|16=0|
END
    expect "$("$globex" session <asked | "$tools/frames" show | grep -c '|35=4|34=4|.*|123=Y|36=4|')" 1 'resets after the last line'
    # Each firm has all of its lines again, and no other.
    for firm in AAA BBB CCC DDD; do
        "$tools/frames" show sent | grep "|56=$firm|" | strip_again >lines
        number=$(wc -l <lines)
        next=$(echo "35=A|49=$firm|56=GX|34=999|52=20240103-08:05:00|108=30|" | "$tools/frames" make | "$globex" session |
            "$tools/frames" show | sed -n 's/.*|35=2|.*|7=\([0-9]*\)|.*/\1/p')
        {
            echo "35=A|49=$firm|56=GX|34=$next|52=20240103-08:05:00|108=30|"
            echo "35=2|49=$firm|56=GX|34=$((next + 1))|52=20240103-08:05:01.250|7=1|16=$number|"
        } | "$tools/frames" make | "$globex" session | "$tools/frames" show | tail -n +2 >again
        expect "$(grep -c '|43=Y|.*|52=20240103-08:05:01.250|' again)" "$number" "lines again of $firm"
        strip_again <again | cmp - lines >&2 || fail "the lines again of $firm differ"
    done
}

# Lines without what differs in a line again.
strip_again() {
    sed 's/|9=[0-9]*|/|/; s/|43=Y|/|/; s/|52=[^|]*|/|/; s/|10=[0-9]*|$/|/'
}

# What `missed` asks, and a part of it.
prepare_cut-session() {
    prepare_logons
    "$tools/frames" make >asked <<'END'
35=A|49=AAA|56=GX|34=3|52=20240103-08:05:00|98=0|108=30|
35=2|49=AAA|56=GX|34=4|52=20240103-08:05:01|7=2|16=0|
35=5|49=AAA|56=GX|34=5|52=20240103-08:05:02|
END
    head -c 100 asked >cut
}
look_cut-session() {
    look_logons
}

prepare_session-port() {
    prepare_cut-session
}
look_session-port() {
    look_logons
    "$globex" session <asked | cmp - taken >&2 || fail 'the answers over a socket differ'
}

# What `close` leaves: a closed market, and an order until cancelled.
prepare_opening() {
    prepare_close
    echo '35=h|49=GX|56=GX|34=1|52=20240102-16:00:00|340=3|' | "$tools/frames" make --product product.toml >orders
    serve
    "$tools/journal" messages journal.gxj >earlier
}
look_opening() {
    # It has kept nothing.
    nothing_lost_or_doubled earlier orders
    cp journal.gxj was
    end_opening 0 '' <gathered
    end_opening 7 'globex: status 7 at 330 after 3 messages' < <(head -c 330 gathered && printf 'no frame at all')
    end_opening 8 'globex: status 8 at 330 after 3 messages' <part
    expect "$("$globex" opening </dev/null | head -n 1)" ESZ4 'the first line without an order'
    # A journal without messages is taken as it is.
    mkdir alone && cp product.toml alone/ && cd alone || return
    "$tools/frames" make --product product.toml >orders <<'END'
35=D|49=AAA|56=GX|34=1|52=20240102-09:30:00|11=a1|55=ESZ4|54=1|38=10|40=2|44=100.02|59=0|
35=D|49=BBB|56=GX|34=1|52=20240102-09:30:01|11=b1|55=ESZ4|54=1|38=5|40=2|44=100.00|59=0|
35=D|49=CCC|56=GX|34=1|52=20240102-09:30:02|11=c1|55=ESZ4|54=2|38=8|40=2|44=99.99|59=0|
35=D|49=DDD|56=GX|34=1|52=20240102-09:30:03|11=d1|55=ESZ4|54=2|38=4|40=2|44=100.01|59=0|
END
    expect "$("$globex" opening <orders | tail -n 3 | tr '\n' '/')" \
        'opening 100.01 volume 10/8@100.01 #1 #3/2@100.01 #1 #4/' 'the worked opening'
    [ ! -s journal.gxj ] || fail 'opening has written a journal'
}

# An opening over standard input ends with a status and this line, and leaves the journal.
end_opening() {
    "$globex" opening >text 2>err
    expect $? "$1" 'the status of an opening'
    expect "$(tail -n 1 err)" "$2" 'the line of an opening'
    [ "$1" = 0 ] || expect "$(in_bytes text)" 0 'bytes sent by an opening that did not end well'
    same journal.gxj was
}

prepare_levels() {
    take_example F
    serve
    cp journal.gxj was
}
look_levels() {
    local number
    same journal.gxj was
    # The feed of the first messages is the front of the feed of all.
    for number in 0 1 2 3 4 5; do
        mkdir "cut$number" && cp product.toml "cut$number/"
        "$tools/journal" cut --messages $number --output "cut$number/journal.gxj" journal.gxj
        (cd "cut$number" && "$globex" levels) >front
        head -c "$(in_bytes front)" feed | cmp - front >&2 || fail "the feed of $number messages is no front of the whole"
    done
    # A checkpoint and an amendment change no level.
    "$globex" checkpoint || fail 'no checkpoint'
    "$globex" levels | cmp - feed >&2 || fail 'a checkpoint changes the feed'
    sed -i 's/^algorithm = "F"/algorithm = "C"/' product.toml
    "$globex" amend || fail 'no amendment'
    "$globex" levels | cmp - feed >&2 || fail 'an amendment changes the feed'
    # A closed output, if there is something to send.
    "$globex" rebuild <feed >&- 2>err
    expect $? 6 'the status of a rebuild whose output is closed'
    # Without a message it is a snapshot of no level. `rebuild` needs no journal.
    mkdir alone && cp product.toml alone/ && cd alone || return
    expect "$("$globex" levels)" 'S 0 0' 'the feed without a message'
    [ ! -s journal.gxj ] || fail 'levels has written a journal'
    rm journal.gxj
    end_rebuild 0 '' < <(printf 'S 0 0\n')
    [ ! -e journal.gxj ] || fail 'rebuild has made a journal'
}

# A rebuild over standard input ends with a status and this line, and sends nothing.
end_rebuild() {
    "$globex" rebuild >text 2>err
    expect $? "$1" 'the status of a rebuild'
    expect "$(tail -n 1 err)" "$2" 'the line of a rebuild'
    expect "$(in_bytes text)" 0 'bytes sent by a rebuild'
}

# A journal of 2,500 made messages.
prepare_join-feed() {
    cp "$top/crates/globex_cli/data/product.toml" product.toml
    made 1 2500 >orders
    serve
}
look_join-feed() {
    local at
    expect "$(in_bytes feed)" 91374 'bytes of the feed'
    # Blocks before the snapshot may stay, and a block that is there twice may not.
    sed -n '/^I 1900 /,$p' feed | "$globex" rebuild | cmp - table >&2 || fail 'blocks before the snapshot are not passed over'
    awk '{ print } /^I 2400 / { header = $0; rows = "" ; for (k = $4; k > 0; k--) { getline; print; rows = rows $0 "\n" }
        print header; printf "%s", rows }' feed >twice
    at=$(awk '/^I 2400 / && had++ { print at; exit } { at += length($0) + 1 }' twice)
    end_rebuild 15 "globex: status 15 at $at after 0 messages" <twice
    # What is no line of a feed.
    end_rebuild 14 'globex: status 14 at 0 after 0 messages' <orders
    end_rebuild 14 'globex: status 14 at 6 after 0 messages' < <(printf 'S 0 0\n%128s' x)
    end_rebuild 14 'globex: status 14 at 6 after 0 messages' < <(printf 'S 0 0\nI 1 0 1\r\n')
    end_rebuild 8 'globex: status 8 at 6 after 0 messages' < <(printf 'S 0 0\n%127s' x)
    # More levels than there may be orders.
    mkdir few && cd few && sed '1i max_orders = 100' ../product.toml >product.toml || return
    "$globex" rebuild <../feed >text 2>err
    expect $? 16 'the status of a feed with too many levels'
    expect "$(in_bytes text)" 0 'bytes sent of a feed with too many levels'
}

# The session whose feed docs/FORMATS.md reads line by line.
prepare_screen() {
    cp "$top/examples/F/product.toml" product.toml
    "$tools/frames" make --product product.toml >orders <<'END'
35=D|49=AAA|56=GX|34=1|52=20240102-09:30:00|11=a1|55=ESZ4|54=2|38=10|40=2|44=100.02|59=0|
35=D|49=BBB|56=GX|34=1|52=20240102-09:30:01|11=b1|55=ESZ4|54=1|38=5|40=2|44=100.00|59=0|
35=D|49=CCC|56=GX|34=1|52=20240102-09:30:02|11=c1|55=ESZ4|54=1|38=50|40=2|44=100.00|59=0|210=10|
35=D|49=CCC|56=GX|34=2|52=20240102-09:30:03|11=c1|55=ESZ4|54=1|38=7|40=2|44=99.99|59=0|
35=D|49=DDD|56=GX|34=1|52=20240102-09:30:04|11=d1|55=ESZ4|54=2|38=9|40=2|44=100.00|59=0|
35=F|49=CCC|56=GX|34=3|52=20240102-09:30:05|11=c2|41=c1|
35=G|49=AAA|56=GX|34=2|52=20240102-09:30:06|11=a2|41=a1|55=ESZ4|54=2|38=10|40=2|44=100.03|
END
    serve
}
look_screen() {
    sed -n '/^A longer one, with what each line says/,/^If the next/s/^| `\([SIR] [^`]*\)` |.*/\1/p' "$top/docs/FORMATS.md" >documented
    "$globex" levels | cmp - documented >&2 || fail 'the feed is not the one that docs/FORMATS.md reads'
}

prepare_follow() {
    take_example F
    cp orders input
    head -c "$("$tools/frames" offset 3 input)" input >orders
    serve
    "$tools/frames" skip 3 input >orders
}
look_follow() {
    local place at
    nothing_lost_or_doubled input
    # Wherever a feed was cut, what is before the place of status 8 is whole blocks.
    for place in $(seq 1 9 "$(in_bytes feed)"); do
        head -c "$place" feed >cut
        "$globex" rebuild <cut >text 2>err
        at=$(sed -n 's/^globex: status 8 at \([0-9]*\) .*/\1/p' err)
        head -c "${at:-$place}" cut >whole
        [ ! -s whole ] || "$globex" rebuild <whole >text || fail "a feed cut at $place is not whole up to ${at:-$place}"
    done
}

prepare_copy() {
    take_example F
    serve
}
look_copy() {
    same backup/journal.gxj journal.gxj
}

prepare_product-of-a-journal() {
    take_example F
    serve
    cp product.toml was
    echo '# changed' >>product.toml
    "$globex" book >/dev/null 2>&1
    expect $? 11 'the status over a changed product'
}
look_product-of-a-journal() {
    same product.toml was
}

prepare_unknown-keys() {
    cp "$top/examples/O/product.toml" product.toml
    sed -i 's/^journal_limit/journal_limt/; s/^top_min/top_mim/; $a max_orders = 5' product.toml
}
look_unknown-keys() {
    local example
    for example in "$top"/examples/*/product.toml "$top/crates/globex_cli/data/product.toml"; do
        cp "$example" product.toml
        rm -f "$log"/*.out "$log"/*.want
        bash "$log.sh"
        expect "$(cat "$log/1.out")" '' "unknown keys of $example"
    done
    rm -f "$log"/*.out "$log"/*.want
}

prepare_trial() {
    cp "$top/crates/globex_cli/data/product.toml" product.toml
}
look_trial() {
    [ ! -e journal.gxj ] || fail 'the trial has touched the session'
}

# Each way in which a run may end early.
situations_go_on='killed read store send cut unopened all'
prepare_go-on() {
    local status=0 sent_before
    two_sessions
    cp orders input
    sent_before=$(in_bytes sent)
    case $1 in
    killed)
        mkfifo in
        "$globex" run <in >>sent 2>>errors &
        exec 3>in
        head -c 20000 orders >&3
        wait_for sent "$sent_before"
        kill -9 $!
        wait $! 2>/dev/null
        exec 3>&-
        ;;
    read)
        no_blocking in 30000 >status
        expect "$(cat status)" 4 'the status of a run whose input does not block'
        ;;
    store)
        (
            trap '' XFSZ
            ulimit -f 30
            "$globex" run <orders 2>>errors
            echo $? >status
        ) | cat >>sent
        expect "$(cat status)" 5 'the status of a run whose file may not grow'
        ;;
    send)
        (
            "$globex" run <orders 2>>errors
            echo $? >status
        ) | head -c 3000 >>sent
        expect "$(cat status)" 6 'the status of a run whose reader is gone'
        ;;
    cut)
        head -c 20011 orders >part
        "$globex" run <part >>sent 2>>errors
        expect $? 8 'the status of a run whose input is cut'
        ;;
    unopened)
        # A record was written and synced, and the crash came before its gate was opened.
        local gate
        gate=$(($(in_bytes journal.gxj) - 1))
        head -c 3000 orders >part
        "$globex" run <part >/dev/null 2>&1
        printf '\000' | dd of=journal.gxj bs=1 seek="$gate" conv=notrunc status=none
        ;;
    all)
        "$globex" run <orders >>sent
        expect $? 0 'the status of a whole run'
        ;;
    esac
}
look_go-on() {
    nothing_lost_or_doubled earlier input
    "$globex" ledger >/dev/null || fail 'ledger does not read the journal'
}

prepare_bad-frame() {
    take_example F
    cp orders right
    # The checksum of the fourth of five messages.
    LC_ALL=C sed -i 's/10=166/10=165/' orders
    serve 7
}
look_bad-frame() {
    nothing_lost_or_doubled right
}

prepare_disk-full() {
    sound=$PWD/sound
    export sound
    mkdir sound disk
    if [ "$(id -u)" = 0 ] && mount -t tmpfs -o size=128k tmpfs disk 2>/dev/null; then
        cd disk || return
        cp "$top/examples/F/product.toml" .
        made 1 100 >../orders
        cp ../orders ../earlier
        count_before
        "$globex" run <../orders >../sent
        expect $? 0 'the status of a first run'
        made 2 1500 >../orders
        count_before
        "$globex" run <../orders >>../sent 2>errors
        expect $? 5 'the status over a full disk'
        cp ../orders ../input
        # The other files of the session are on that disk, too.
        mount -o remount,size=4m . && mv ../orders ../sent .
        return
    fi
    echo '    a file that may not grow stands in for the disk: not root, or no mount'
    prepare_go-on store
}
look_disk-full() {
    cp earlier input "$sound/session"
    cd "$sound/session" || return
    run_script go-on "$log.next"
    nothing_lost_or_doubled earlier input
}

prepare_wrong-end-of-output() {
    take_example F
    serve
    cp sent was
    head -c 1500 was >sent
    head -c 300 /dev/zero >>sent
}
look_wrong-end-of-output() {
    same sent was
}

prepare_longer-output() {
    local older
    take_example Q
    cp orders all
    head -c "$("$tools/frames" offset 4 all)" all >orders
    serve
    cp journal.gxj older
    "$tools/frames" skip 4 all >orders
    serve
    mv older journal.gxj
    mv all orders
}
look_longer-output() {
    nothing_lost_or_doubled orders
}

prepare_bad-end() {
    take_example F
    serve
    cp orders first
    # A copy that was made during a write: the gate is open, and the record is not whole.
    made 3 10 >orders
    serve
    head -c $(($(in_bytes journal.gxj) - 200)) journal.gxj >part && mv part journal.gxj
    "$globex" book >/dev/null 2>&1
    expect $? 10 'the status over a bad end'
}
look_bad-end() {
    "$tools/journal" messages journal.gxj | cmp - first >&2 || fail 'the journal does not keep the messages before the bad end'
    "$globex" book >/dev/null || fail 'book does not read the journal'
}

prepare_bad-image() {
    local gate
    take_example F
    serve
    gate=$(($(in_bytes journal.gxj) - 1))
    "$globex" checkpoint
    made 3 3 >orders
    serve
    # The count of resting orders, which is at 577 of the image.
    printf '\001' | dd of=journal.gxj bs=1 seek=$((gate + 6 + 577)) conv=notrunc status=none
    "$globex" book >/dev/null 2>&1
    expect $? 10 'the status over a bad image'
    "$globex" run </dev/null 2>&1 >/dev/null | grep -q "at $gate " || fail 'the place is not the gate of the image'
}
look_bad-image() {
    "$globex" run </dev/null || fail 'run does not read the journal'
    "$globex" book >/dev/null || fail 'book does not read the journal'
}

# A journal that is full in the middle of a session, and a product with the least limit.
full_session() {
    cp "$top/crates/globex_cli/data/product.toml" product.toml
    sed -i 's/^firms.*/&\njournal_limit = 131072/' product.toml
    made_of_more 1 300 >orders
    serve
    cp orders earlier
    made_of_more 2 1200 >orders
    cp orders input
    serve 12
}

# Made messages that have no room in a journal of this product.
made_of_more() {
    local folder
    folder=$(mktemp -d "$work/made.XXXXXX")
    sed 's/^journal_limit.*/journal_limit = 16777216/' product.toml >"$folder/product.toml"
    (cd "$folder" && "$globex" drill --first "$1" --count "$2" >/dev/null && "$tools/journal" messages journal.gxj)
}

prepare_full-amend() {
    full_session
}
look_full-amend() {
    nothing_lost_or_doubled earlier input
}

prepare_full-grow() {
    full_session
}
look_full-grow() {
    nothing_lost_or_doubled earlier input
}

prepare_full-anew() {
    cat >product.toml <<'END'
exchange = "GX"
firms = ["AAA", "BBB", "CCC", "DDD"]

[[instrument]]
name = "ESZ4"
decimals = 2
tick = 1
protection = 2
algorithm = "A"
END
    "$tools/frames" make --product product.toml >orders <<'END'
35=D|49=AAA|56=GX|34=1|52=20240102-09:30:00|11=a1|55=ESZ4|54=2|38=40|40=2|44=100.05|59=1|210=10|
35=D|49=AAA|56=GX|34=2|52=20240102-09:30:01|11=a1|55=ESZ4|54=2|38=50|40=2|44=100.05|59=1|210=7|
35=D|49=CCC|56=GX|34=1|52=20240102-09:30:02|11=c1|55=ESZ4|54=2|38=26|40=2|44=100.05|59=0|
35=G|49=AAA|56=GX|34=3|52=20240102-09:30:03|11=a2|41=a1|55=ESZ4|54=2|38=82|40=2|44=100.04|
35=G|49=AAA|56=GX|34=4|52=20240102-09:30:04|11=a3|41=a2|55=ESZ4|54=2|38=82|40=2|44=100.05|
35=D|49=DDD|56=GX|34=1|52=20240102-09:30:05|11=d1|55=ESZ4|54=1|38=9|40=4|44=100.20|99=100.10|59=3|110=4|
35=D|49=BBB|56=GX|34=1|52=20240102-09:30:06|11=b1|55=ESZ4|54=1|38=18|40=2|44=100.05|59=0|
35=D|49=AAA|56=GX|34=5|52=20240102-09:30:07|11=a4|55=ESZ4|54=2|38=2|40=2|44=100.00|59=0|
35=D|49=BBB|56=GX|34=2|52=20240102-09:30:08|11=b3|55=ESZ4|54=1|38=5|40=1|59=0|
END
    serve
    "$globex" book >first.txt
}
look_full-anew() {
    cat first.txt entries.txt new.txt >"$log.books"
    "$tools/journal" check journal.gxj --product product.toml >/dev/null || fail 'the new journal is not good'
    expect "$("$globex" replay | "$tools/frames" show | grep -c '|150=8|')" 0 'entries refused'
}

prepare_dispute() {
    take_example Q
    serve
}
look_dispute() { :; }

prepare_look() {
    prepare_dispute
}
look_look() {
    [ -e "$top/view/index.html" ] || fail 'there is no page'
}

prepare_socket() {
    take_example F
    cp orders input
}
look_socket() {
    socket_turn serve 0
    nothing_lost_or_doubled input
    cat orders-* | cmp - input >&2 || fail 'what came in is not kept'
}

# ---- what the page says of the program

two-runs() {
    local run word status
    serve_first_order
    cp journal.gxj was
    for word in run 'drill --first 1 --count 1' checkpoint amend; do
        "$globex" $word <orders >out 2>>errors
        expect $? 5 "the status of $word beside a run"
        expect "$(in_bytes out)" 0 "what $word sends beside a run"
        same journal.gxj was
    done
    for word in replay fills ledger levels book session opening steps; do
        "$globex" $word </dev/null >/dev/null
        expect $? 0 "the status of $word beside a run"
    done
    "$tools/frames" skip 2 orders >&3
    exec 3>&-
    wait $run
    expect $? 0 'the status of the first run'
    nothing_lost_or_doubled orders
    # After kill -9 the lock is free.
    "$globex" run <in >/dev/null 2>&1 &
    run=$!
    exec 3>in
    for status in 1 2 3 4 5 6 7 8 9 10; do
        "$globex" checkpoint 2>/dev/null
        [ $? = 5 ] && break
        sleep 0.1
    done
    kill -9 $run
    wait $run 2>/dev/null
    "$globex" run </dev/null || fail 'the lock outlives a process that was killed'
    exec 3>&-
    nothing_lost_or_doubled orders
}

# Each command with each of the standard streams closed or not, over no journal and over one with messages.
closed-streams() {
    local command closed kept status
    take_example F
    mkdir with without
    cp product.toml orders with
    cp product.toml orders without
    (cd with && "$globex" run <orders >/dev/null)
    cp with/journal.gxj kept.gxj
    for kept in with without; do
        for command in run replay book fills ledger levels session opening rebuild steps checkpoint amend 'drill --first 1 --count 3'; do
            for closed in 0 1 2 01 02 12 012; do
                (try_closed)
            done
        done
    done
    [ ! -e failed ] || said=1
}

try_closed() {
    local words='' wanted=0 before=0 has
    said=0
    rm -f "$kept/journal.gxj"
    [ $kept = without ] || { cp kept.gxj "$kept/journal.gxj" && before=5; }
    cd $kept || return
    case $closed in *0*) words="$words <&-" ;; esac
    case $closed in *1*) words="$words >&-" ;; esac
    case $closed in *2*) words="$words 2>&-" ;; esac
    eval "\"\$globex\" $command <orders >../out 2>../err $words"
    status=$?
    case $command:$closed in
    run:*0* | session:*0* | opening:*0* | rebuild:*0*) wanted=4 ;;
    # These orders are no level feed.
    rebuild:*) wanted=14 ;;
    checkpoint:* | amend:*) ;;
    *:*1*)
        wanted=6
        # Nothing is sent of a journal without messages.
        case $kept:$command in without:replay | without:fills) wanted=0 ;; esac
        ;;
    esac
    what="$command, closed $closed, $kept a journal"
    expect $status $wanted "$what: the status"
    same product.toml ../product.toml
    same orders ../orders
    has=$before
    case $command:$wanted in
    run:0 | run:6) has=$((before + 5)) ;;
    drill*) has=$((before + 3)) ;;
    esac
    case $kept:$command in
    with:replay | with:book | with:fills | with:ledger | with:levels | with:session | with:opening | with:rebuild | with:steps)
        same journal.gxj ../kept.gxj
        ;;
    without:replay | without:book | without:fills | without:ledger | without:levels | without:session | without:opening)
        [ ! -s journal.gxj ] || fail "$what: bytes in the journal"
        ;;
    without:rebuild | without:steps) [ ! -e journal.gxj ] || fail "$what: a journal was made" ;;
    *)
        expect "$("$tools/journal" count journal.gxj)" $has "$what: messages kept"
        "$tools/journal" check journal.gxj --product product.toml >/dev/null || fail "$what: the journal is not good"
        ;;
    esac
    [ "$wanted" = 0 ] || case $closed in
    *2*) ;;
    *) tail -n 1 ../err | grep -q "^globex: status $wanted " || fail "$what: no status line" ;;
    esac
    expect "$(ls | grep -vx -e product.toml -e orders -e journal.gxj)" '' "$what: other files"
    [ $said = 0 ] || touch ../failed
}

wrong-words() {
    local words
    for words in '' nothing --help 'run book' drill 'drill --first 1' 'steps --first 1' 'run --count 1' 'amend book' 'session run' 'session --first 1' sessions \
        'opening book' 'opening --count 1' openings Run level 'levels book' 'levels rebuild' 'rebuild --count 1' rebuilds; do
        "$globex" $words </dev/null >out 2>/dev/null
        expect $? 2 "the status of the words '$words'"
        expect "$(ls)" out "files after the words '$words'"
    done
    take_example F
    "$globex" steps >/dev/null || fail 'steps does not read the product'
    [ ! -e journal.gxj ] || fail 'steps makes a journal'
}

# What comes before the status line: the line that is said of a status, by its words.
says() {
    local status
    "$globex" $3 </dev/null >out 2>err
    status=$?
    expect $status "$1" "the status of $3"
    grep -qF -- "$2" err || fail "'$2' is not said of status $1 by $3: $(head -n 1 err)"
    tail -n 1 err | grep -q "^globex: status $1 at [0-9]* after [0-9]* messages$" || fail "the last line of $3 is no status line"
}

reasons() {
    take_example F
    says 2 'globex checkpoint' nothing
    says 2 "globex $(sed -n 's/^## \([0-9.]*\),.*/\1/p' "$top/CHANGELOG.md" | head -n 1): " --help
    mv product.toml right.toml
    says 4 'product.toml cannot be opened: No such file' steps
    mkdir product.toml
    says 4 'a read of product.toml failed: Is a directory' steps
    rmdir product.toml
    sed '/^tick/d' right.toml >product.toml
    says 3 'rule 3, Missing' steps
    says 3 '`tick` is missing' steps
    sed 's/^firms = .*/firms = ["AAA", "AAA"]/' right.toml >product.toml
    says 3 'the name `AAA` stands twice' steps
    cp right.toml product.toml
    rm -f journal.gxj
    mkdir journal.gxj
    says 5 'journal.gxj cannot be opened: Is a directory' run
    rmdir journal.gxj
    ln -s /dev/full journal.gxj
    says 5 'a sync of journal.gxj failed: Invalid argument' run
    rm journal.gxj
    serve
    printf '\001' | dd of=journal.gxj bs=1 seek=$(($(in_bytes journal.gxj) - 1)) conv=notrunc status=none
    says 10 'No other process has its lock now.' book
    exec 4<journal.gxj
    flock -x 4
    says 10 'another process has the lock of journal.gxj' book
    says 5 'another process has the lock of journal.gxj' run
    exec 4<&-
    "$globex" run <. >out 2>err
    [ "$(wc -l <err)" -gt 1 ] || fail 'no reason of a standard input that is a folder'
}

# The file of before an amendment that raised the limit, put back over a journal that needs the higher one.
lower-limit() {
    cp "$top/crates/globex_cli/data/product.toml" product.toml
    sed -i 's/^firms.*/&\njournal_limit = 131072/' product.toml
    cp product.toml former.toml
    sed -i 's/^journal_limit.*/journal_limit = 1000000/' product.toml
    made 1 1500 >orders
    cp product.toml next.toml
    cp former.toml product.toml
    "$globex" amend || fail 'no first journal'
    cp next.toml product.toml
    "$globex" amend || fail 'no amendment'
    serve
    "$tools/journal" check --product product.toml journal.gxj >/dev/null || fail 'the journal is not good'
    cp former.toml product.toml
    "$globex" book >out 2>err
    expect $? 10 'the status with the former file'
    "$tools/journal" check --product product.toml journal.gxj 2>told && fail 'check takes the former file'
    grep -q '^place [0-9]*: no damage: journal_limit of product.toml is 131,072' told || fail "check says: $(cat told)"
    expect "$(sed 's/^place \([0-9]*\):.*/\1/' told)" "$(tail -n 1 err | cut -d ' ' -f 5)" 'the place that check tells'
    "$tools/journal" product journal.gxj >product.toml
    "$globex" book >/dev/null || fail 'the right file does not help'
}

# Each command that only reads, 200 times beside a run on a disk, and as often beside one in memory.
readers() {
    "$top/docs/check-readers.py" "$globex" || fail 'a reader beside a writer'
}

# The names of the calls on files that a command makes after it has opened the journal. `calls` has the lines of strace.
calls_after_the_open() {
    strace -e trace=openat,flock,fsync,pwrite64 -o calls "$globex" "$@" <orders >/dev/null 2>err || fail "$1 under strace"
    awk -F '[(,) ]' '/"journal.gxj"/ { opened = 1; next } opened && /\(/ { print $1 }' calls
}

# A command that writes locks the journal and syncs its folder before it writes. A command that only reads syncs nothing. If the folder
# cannot be synced the status is 5, and the journal is as it was.
folder-synced() {
    local words
    take_example F
    for words in run checkpoint amend 'drill --first 1 --count 1'; do
        # shellcheck disable=SC2086
        expect "$(calls_after_the_open $words | head -n 3 | tr '\n' ' ')" 'flock openat fsync ' "the first calls of $words"
        expect "$(awk '/"\."/ { print "fsync(" $NF ")" }' calls)" "$(grep -m 1 -o 'fsync([0-9]*)' calls)" "what $words syncs first"
    done
    for words in replay fills ledger levels book session opening; do
        expect "$(calls_after_the_open $words)" '' "the calls of $words on files"
    done
    cp journal.gxj before
    strace -e trace=fsync -e inject=fsync:error=EIO:when=1 -o calls "$globex" run <orders >out 2>err
    expect $? 5 'the status of a folder that cannot be synced'
    grep -q 'the folder of journal.gxj cannot be synced: ' err || fail "of a folder that cannot be synced it says: $(cat err)"
    cmp journal.gxj before || fail 'the journal has changed though its folder was not synced'
}

# A run over `orders` whose input or output does not block. Prints its status. Of the input the first bytes are there.
no_blocking() {
    python3 - "$globex" "$@" <<'END'
import os, subprocess, sys
program, side, count = sys.argv[1], sys.argv[2], int(sys.argv[3])
ours, theirs = os.pipe() if side == "out" else reversed(os.pipe())
os.set_blocking(theirs, False)
with open("orders", "rb") as orders, open("sent", "ab") as sent, open("errors", "ab") as errors:
    if side == "in":
        os.write(ours, orders.read(count))
        done = subprocess.run([program, "run"], stdin=theirs, stdout=sent, stderr=errors)
    else:
        done = subprocess.run([program, "run"], stdin=orders, stdout=theirs, stderr=errors)
        os.close(theirs)
        while part := os.read(ours, 65536):
            sent.write(part)
print(done.returncode)
END
}

no-blocking() {
    two_sessions
    expect "$(no_blocking in 30000)" 4 'the status if the input does not block'
    two_sessions_anew
    expect "$(no_blocking out 0)" 6 'the status if the output does not block'
}

two_sessions_anew() {
    rm -f journal.gxj sent errors
    two_sessions
}

size-limit() {
    two_sessions
    (
        ulimit -f 30
        "$globex" run <orders 2>err | cat >/dev/null
        exit "${PIPESTATUS[0]}"
    ) 2>/dev/null
    expect $? 153 'the status beyond ulimit -f'
    [ ! -s err ] || fail 'a status line beyond ulimit -f'
    "$globex" run </dev/null || fail 'the journal is not good beyond ulimit -f'
}

read-only() {
    local word somebody=()
    take_example F
    serve
    chmod 755 "$work" .
    chmod 444 journal.gxj product.toml orders
    cp "$globex" ./program && chmod 755 program
    [ "$(id -u)" != 0 ] || somebody=(setpriv --reuid=65534 --regid=65534 --clear-groups)
    for word in run replay fills ledger levels book session opening checkpoint amend; do
        "${somebody[@]}" ./program $word <orders >/dev/null 2>&1
        expect $? 5 "the status of $word over a read-only journal"
    done
}

# A journal that is no plain file.
strange-journals() {
    local kind word status
    take_example F
    for kind in pipe folder null full; do
        for word in replay levels book session opening run checkpoint amend; do
            rm -rf journal.gxj
            case $kind in
            pipe) mkfifo journal.gxj ;;
            folder) mkdir journal.gxj ;;
            null) ln -s /dev/null journal.gxj ;;
            full) ln -s /dev/full journal.gxj ;;
            esac
            timeout 5 "$globex" $word <orders >out 2>err
            status=$?
            case $kind:$word in
            folder:* | *:run | *:checkpoint | *:amend) expect $status 5 "the status of $word over a $kind" ;;
            *) expect $status 0 "the status of $word over a $kind" ;;
            esac
        done
    done
}

# The name is taken away, or the file is cut, while a run goes on.
removed-journal() {
    local run
    serve_first_order
    rm journal.gxj
    "$tools/frames" skip 2 orders >&3
    exec 3>&-
    wait $run
    expect $? 0 'the status of a run whose journal was removed'
    [ ! -e journal.gxj ] || fail 'the journal is there again'
}

# A connection served by `serve` or by the program itself: sends `input`, closes or waits, and prints what it sees.
socket_turn() {
    python3 - "$1" "$globex" input >turn <<'END'
import socket, subprocess, sys
way, program, name = sys.argv[1:4]
with open(name, "rb") as file:
    data = file.read()
listener = socket.create_server(("127.0.0.1", 0))
client = socket.create_connection(listener.getsockname())
served, _ = listener.accept()
listener.close()
words = ["./serve"] if way == "serve" else [program, "run"]
with open("errors", "ab") as errors:
    child = subprocess.Popen(words, stdin=served, stdout=served, stderr=errors)
served.close()
client.settimeout(10)
got, end = b"", "end"
try:
    client.sendall(data)
    if way == "serve":
        client.shutdown(socket.SHUT_WR)
    while part := client.recv(65536):
        got += part
except OSError as fault:
    end = type(fault).__name__
print(end, child.wait(), len(got))
END
    read -r end status bytes <turn
    expect "$status" "$2" 'the status of what serves the connection'
}

socket-endings() {
    local end status bytes
    take_example F
    cp orders input
    printf 'no frame at all' >>input
    socket_turn program 7
    echo "    7: the client sees $end after $bytes bytes of reports"
    rm journal.gxj
    full_session
    socket_turn program 12
    echo "    12: the client sees $end after $bytes bytes of reports"
}

# How a session ends, and that the journal stays as it is.
session-endings() {
    local run
    prepare_cut-session
    end_session 0 '' </dev/null
    expect "$(in_bytes answers)" 0 'bytes sent of no message'
    end_session 7 'globex: status 7 at 0 after 0 messages' < <(printf 'no frame at all')
    end_session 7 'globex: status 7 at 78 after 1 messages' < <(head -c 78 asked && printf 'no frame at all')
    expect "$("$tools/frames" show answers | grep -c '|35=A|')" 1 'answers before what is no frame'
    # After kill -9 nothing is kept of it: the firm begins with the same number again.
    mkfifo in
    "$globex" session <in >answers &
    run=$!
    exec 3>in
    head -c 78 asked >&3
    wait_for answers 70
    kill -9 $run
    wait $run 2>/dev/null
    exec 3>&-
    same journal.gxj was
    end_session 0 '' <asked
    expect "$("$tools/frames" count answers)" 4 'answers after a session that was killed'
    # A bad record is told before anything is sent, at the place that replay tells.
    head -c $(($(in_bytes journal.gxj) - 20)) journal.gxj >part && mv part journal.gxj
    cp journal.gxj was
    end_session 10 "$("$globex" replay 2>&1 >/dev/null | tail -n 1)" <asked
    expect "$(in_bytes answers)" 0 'bytes sent over a bad record'
}

# A session over standard input ends with a status and this line, and leaves the journal.
end_session() {
    "$globex" session >answers 2>err
    expect $? "$1" 'the status of a session'
    expect "$(tail -n 1 err)" "$2" 'the line of a session'
    same journal.gxj was
}

# ---- all of them

# Runs the commands of a recipe in this folder, with its logs in a folder of their own.
run_script() {
    mkdir "$2" || return
    script_of "$1" "$2" >"$2.sh"
    bash "$2.sh"
}

# Compares what the blocks printed with the page, and looks for what no command should say.
compare_blocks() {
    local want out
    for want in "$log"/*.want; do
        [ -e "$want" ] || continue
        out=${want%.want}.out
        cmp -s "$want" "$out" || {
            fail "block $(basename "${want%.want}") printed this, by diff from the page:"
            diff "$want" "$out" | sed 's/^/        /' >&2
        }
    done
    grep -lE 'command not found|No such file|usage:|Traceback|syntax error' "$log"/*.out 2>/dev/null | while read -r out; do
        echo "    $(basename "$out"): $(grep -m 1 -E 'command not found|No such file|usage:|Traceback|syntax error' "$out")"
    done >"$log.complaints"
    [ ! -s "$log.complaints" ] || fail "$(cat "$log.complaints")"
}

try_recipe() {
    local folder=$work/$1${2:+-$2}
    log=$folder.log
    said=0
    mkdir "$folder" && cd "$folder" || return 1
    "prepare_$1" "${2:-}"
    run_script "$1" "$log"
    [ -n "${2:-}" ] || compare_blocks
    cd "$folder" || return 1
    "look_$1"
    exec 3>&-
    return $said
}

try_check() {
    local folder=$work/check-$1
    said=0
    mkdir "$folder" && cd "$folder" || return 1
    "$1"
    return $said
}

differs=()
try() {
    local id=$1 situation
    if [[ " ${checks[*]} " == *" $id "* ]]; then
        (try_check "$id") || differs+=("$id")
        echo "$id"
        return
    fi
    if ! declare -F "prepare_$id" >/dev/null; then
        echo "    no function here prepares it" >&2
        differs+=("$id")
        return
    fi
    if [ "$id" = go-on ]; then
        for situation in ${situations_go_on}; do
            (try_recipe "$id" "$situation") || differs+=("$id ($situation)")
        done
    else
        (try_recipe "$id") || differs+=("$id")
    fi
    echo "$id"
}

if [ $# -eq 0 ]; then
    # shellcheck disable=SC2046
    set -- $(recipes) "${checks[@]}"
fi
for id in "$@"; do
    try "$id"
done
if [ ${#differs[@]} -gt 0 ]; then
    printf 'check-recipes: %s differs\n' "${differs[@]}" >&2
    exit 1
fi
echo "check-recipes: $# recipes and checks, all as docs/OPERATING.md and docs/CLIENTS.md say"
