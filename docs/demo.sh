#!/bin/bash
# Kills a run with -9 in mid-stream, goes on from its journal, and compares with one run that nobody killed.
#
#     docs/demo.sh [PROGRAM] >docs/demo.txt
#
# Prints each command with what it prints, and does all of it in a folder of its own, which it takes away. Where the kill comes
# differs from run to run, and so do the numbers. Ends with 1 if the reports of both runs together are not those of the one run, byte
# for byte. Needs Python 3.11, for tools/. The commands are those of the recipe `go-on` in docs/OPERATING.md.
set -u

top=$(CDPATH='' cd -- "$(dirname -- "$0")/.." && pwd) || exit 1
program=$(realpath -- "${1:-$top/crates/globex_cli/out/globex_cli}")
[ -x "$program" ] || { echo "demo: $program is not there; ./run-example.sh builds it" >&2; exit 1; }
work=$(mktemp -d) || exit 1
trap 'rm -rf -- "$work"' EXIT
trap 'exit 1' HUP INT TERM

mkdir "$work/bin" "$work/made" "$work/killed" "$work/whole"
ln -s "$program" "$work/bin/globex"
ln -s "$top/tools/frames" "$top/tools/journal" "$work/bin/"
for folder in made killed whole; do cp "$top/examples/F/product.toml" "$work/$folder/"; done
PATH=$work/bin:$PATH
export LC_ALL=C

# Prints a command, and does it.
show() {
    echo "\$ $1"
    eval "$1" 2>&1
}

# Waits until the run has sent so many bytes, and kills it then.
kill_at() {
    while [ "$(wc -c <sent)" -lt "$1" ] && kill -0 "$run" 2>/dev/null; do :; done
    kill -9 "$run" 2>/dev/null || { echo 'demo: the run had ended before the kill' >&2; exit 1; }
    wait "$run" 2>/dev/null
    echo "the run ended with status $?"
}

cd "$work/made" || exit 1
echo '# 40,000 made messages, as a file of FIX frames.'
show 'globex drill --first 1 --count 40000'
show 'journal messages journal.gxj >../orders'

echo
echo '# A run over all of them, killed when it has sent some 4 million bytes.'
cd ../killed || exit 1
: >sent
show 'globex run <../orders >sent & run=$!'
show 'kill_at 4000000'

echo
echo '# What is kept, and which reports of it did nobody get? A report that was sent is of a message that is kept.'
show 'kept=$(journal count journal.gxj)'
show 'echo "$kept messages are kept, $(wc -c <sent) bytes were sent"'
show 'globex replay >all'
show 'cmp sent all'
show 'tail -c +$(($(wc -c <sent) + 1)) all >missing'
show 'wc -c <missing'
show 'cat missing >>sent'

echo
echo '# Hand in what is not kept, and nothing else.'
show 'frames skip $kept ../orders >rest'
show 'globex run <rest >>sent; echo "status $?"'

echo
echo '# The same messages in one run that nobody kills.'
cd ../whole || exit 1
show 'globex run <../orders >sent; echo "status $?"'
show 'wc -c <sent'

echo
echo '# The reports, the book and the ledger of both are the same, byte for byte.'
cd .. || exit 1
for folder in killed whole; do
    for command in book ledger; do (cd $folder && globex $command >$command) || exit 1; done
    journal messages $folder/journal.gxj >$folder/messages
done
ended=0
for file in sent book ledger messages; do
    show "cmp killed/$file whole/$file && echo same" || ended=1
done
show 'tail -n 1 whole/ledger'
exit $ended
