#!/bin/sh
# Builds the program. Runs the stored example in a folder of its own, and shows its reports, its book and, after a checkpoint,
# its ledger; then runs the example of each algorithm, and shows the reports. `|` stands for SOH, and each report has a line.
# Ends with a status other than 0 where anything differs from what is stored.
#
#     ./run-example.sh [--unproved]
#
# With --unproved it proves nothing and leaves no program: it compiles and runs the stored example alone, in a minute or two, and
# shows and compares its reports.
set -u

fail() {
    echo "run-example: $1" >&2
    exit 1
}

unproved=no
case $#:${1:-} in
0:) ;;
1:--unproved) unproved=yes ;;
*) fail 'the only word is --unproved' ;;
esac

top=$(CDPATH='' cd -- "$(dirname -- "$0")" && pwd) || exit 1
crate=$top/crates/globex_cli
program=$crate/out/globex_cli
journal=$crate/journal.gxj

command -v rt >/dev/null 2>&1 || fail 'rt, the command of the toolchain, is not on the PATH'
folder=$(mktemp -d) || exit 1

# `rt run` runs the program in the crate's folder, where it makes an empty journal.
had_journal=no
if [ -e "$journal" ]; then had_journal=yes; fi
tidy() {
    rm -rf -- "$folder"
    if [ "$had_journal" = no ]; then rm -f -- "$journal"; fi
}
trap tidy EXIT
trap 'exit 1' HUP INT TERM

# Bytes as text: a line for each frame.
shown() {
    tr '\001' '|' | sed 's/|8=FIX\.4\.2|/|\
8=FIX.4.2|/g'
}

# A first look: `rt try` compiles and runs in a folder of its own, and proves nothing.
if [ "$unproved" = yes ]; then
    echo 'run-example: nothing is proved here. The program is only compiled and run, which takes a minute or two.'
    (cd "$crate" && rt try --data product.toml=data/product.toml -- run <stdin >"$folder/reports" 2>"$folder/log")
    status=$?
    [ "$status" -eq 0 ] || { tail -n 5 -- "$folder/log" >&2 && fail "it ended with status $status, and nothing was proved"; }
    shown <"$folder/reports"
    echo
    cmp -- "$folder/reports" "$crate/stdout" || fail 'these are not the stored reports, and nothing was proved'
    echo 'run-example: the stored reports, byte for byte; nothing was proved. ./run-example.sh proves the program and builds it.'
    exit 0
fi

# Proves what has changed since the last build, and builds and runs the program. Only a proved program is built. This first
# run may lack a product, so its status tells nothing.
rm -f -- "$program"
(cd "$crate" && rt run -- run </dev/null)
[ -x "$program" ] || fail 'the program was not built'

# Runs over the product and the orders in the folder, from a new journal on.
serve() {
    rm -f -- "$folder/journal.gxj"
    (cd "$folder" && "$program" run <orders >reports)
    status=$?
    [ "$status" -eq 0 ] || fail "the program ended with status $status"
}

# Prints what the journal in the folder keeps, by a command of one word, and compares it with a stored text.
print_kept() {
    echo
    echo "$1:"
    (cd "$folder" && "$program" "$1" </dev/null >text)
    status=$?
    cat -- "$folder/text"
    [ "$status" -eq 0 ] || fail "the program ended with status $status at $1"
    cmp -- "$folder/text" "$2" || fail "this is not the stored $1"
}

# Adds a book image to the journal in the folder: nothing is sent, and the book stays the stored one.
take_checkpoint() {
    (cd "$folder" && "$program" checkpoint </dev/null >text && [ ! -s text ] && "$program" book </dev/null >text)
    status=$?
    [ "$status" -eq 0 ] || fail "the program ended with status $status at a checkpoint, or sent something"
    cmp -- "$folder/text" "$1" || fail 'this is not the stored book, after a checkpoint'
}

cp -- "$crate/data/product.toml" "$folder/product.toml" || exit 1
cp -- "$crate/stdin" "$folder/orders" || exit 1
serve
shown <"$folder/reports"
echo
cmp -- "$folder/reports" "$crate/stdout" || fail 'these are not the stored reports'
print_kept book "$top/examples/first-run/book.txt"
take_checkpoint "$top/examples/first-run/book.txt"
print_kept ledger "$top/examples/first-run/ledger.txt"

for example in "$top"/examples/*/; do
    # Folders without orders have other things.
    [ -e "$example/orders.txt" ] || continue
    echo
    echo "$(basename -- "$example"):"
    cp -- "$example/product.toml" "$folder/product.toml" || exit 1
    tr -d '\n' <"$example/orders.txt" | tr '|' '\001' >"$folder/orders"
    serve
    { shown <"$folder/reports" && echo; } | tee -- "$folder/text"
    cmp -- "$folder/text" "$example/reports.txt" || fail "these are not the reports of $example"
done
echo
echo 'run-example: the stored reports, book and ledger, byte for byte'
