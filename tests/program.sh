#!/usr/bin/env bash
# tests/program.sh: runs ./sx as its users do: the examples, pipes, a folder as the document, a reader that goes away, and little
# memory. It expects the program to be built.
set -u
cd "$(dirname "$0")/.."
work=$(mktemp -d)
trap 'rm -rf "$work"' EXIT
failures=0
count=0

# name, wanted status, status, wanted diagnostic line, file with the line, file with the wanted result, file with the result
compare() {
  count=$((count + 1))
  if [ "$2" = "$3" ] && [ "$4" = "$(cat "$5")" ] && cmp -s "$6" "$7"; then return; fi
  echo "tests/program.sh: $1: status $3 for $2, line '$(cat "$5")' for '$4', or another result" >&2
  failures=$((failures + 1))
}

# name, wanted status, wanted line, file with the wanted result; then the words
expect() {
  local name=$1 status=$2 line=$3 wanted=$4
  shift 4
  ./sx "$@" >"$work/result" 2>"$work/line"
  compare "$name" "$status" $? "$line" "$work/line" "$wanted" "$work/result"
}

: >"$work/nothing"
expect "a copy" 0 "" examples/order.esis copy examples/order.esis
expect "the first example" 0 "" tests/cases/names/expected.esis run examples/names.esis examples/order.esis
expect "the second example" 0 "" tests/cases/rename/expected.esis run examples/rename.esis examples/order.esis
expect "no words" 1 "error usage" "$work/nothing"
expect "a stylesheet that is none" 2 "error XTSE0010 line 1" "$work/nothing" run examples/order.esis examples/order.esis
expect "no such file" 5 "error open" "$work/nothing" copy "$work/none"
expect "a folder as the document" 6 "error read" "$work/nothing" copy examples
expect "a folder as the stylesheet" 6 "error read" "$work/nothing" run examples examples/order.esis

./sx copy /dev/stdin <examples/order.esis >"$work/result" 2>"$work/line"
compare "standard input" 0 $? "" "$work/line" examples/order.esis "$work/result"
cat examples/order.esis | ./sx copy /dev/stdin >"$work/result" 2>"$work/line"
compare "a pipe" 0 $? "" "$work/line" examples/order.esis "$work/result"

# A reader that goes away: what it took is a front of the copy, and the program ends.
{ echo "(a"; for i in $(seq 20000); do printf -- '(b\n-%s\n)b\n' "$i"; done; echo ")a"; echo "C"; } >"$work/long"
head -c 40 "$work/long" >"$work/front"
(./sx copy "$work/long" 2>"$work/line"; echo $? >"$work/status") | head -c 40 >"$work/result"
compare "a closed pipe" 7 "$(cat "$work/status")" "error write" "$work/line" "$work/front" "$work/result"

# Little memory: the same long text is copied where there is enough, and else what stands before it was written.
{ printf '(a\n(b\n)b\n'; for i in $(seq 12); do printf -- '-'; head -c 1000000 /dev/zero | tr '\0' y; echo; done; printf ')a\nC\n'; } >"$work/text"
tr -d '\n' <"$work/text" | sed 's/(a(b)b-/(a\n(b\n)b\n-/; s/y-y/yy/g; s/)aC$/\n)a\nC\n/' >"$work/whole"
expect "a long text" 0 "" "$work/whole" copy "$work/text"
printf '(a\n(b\n)b\n' >"$work/front"
(ulimit -v 16000 && exec crates/sx_cli/out/sx_cli copy "$work/text") >"$work/result" 2>"$work/line"
compare "little memory" 9 $? "error memory" "$work/line" "$work/front" "$work/result"

echo "$count runs of the program as its users run it, $failures failed"
[ "$failures" = 0 ]
