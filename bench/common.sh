# What the measurements share: the documents, times with memory, and instructions per element. They write to "$work".
here=$(cd "$(dirname "${BASH_SOURCE[0]}")/.." && pwd)
program=$here/crates/sx_cli/out/sx_cli
work=$(mktemp -d)
trap 'rm -rf "$work"' EXIT

document() { # elements, each an order with attributes and a note: one in a namespace, and escapes; eight lines
  awk -v n="$1" 'BEGIN {
    print "Axmlns:t CDATA urn:text"; print "(orders"
    for (i = 0; i < n; i++)
      printf "Aid CDATA o%d\nAstate CDATA open\n(order\nAt:by CDATA post\n(note\n-number %d, to be sent\\nby the end of the \\\\week\n)note\n)order\n", i, i
    print ")orders"; print "C"
  }'
}

copied() { # of such a document: each note declares the prefix that the root's name does not use
  sed -e 1d -e 's/^At:by /Axmlns:t CDATA urn:text\n&/'
}

as_xml() { # of such a document
  awk '
    function text(s) { gsub(/&/, "\\&amp;", s); gsub(/</, "\\&lt;", s); gsub(/\\n/, "\n", s); gsub(/\\\\/, "\\", s); return s }
    /^A/ { s = substr($0, 2); k = index(s, " CDATA "); a = a " " substr(s, 1, k - 1) "=\"" text(substr(s, k + 7)) "\""; next }
    /^\(/ { printf "<%s%s>", substr($0, 2), a; a = ""; next }
    /^\)/ { printf "</%s>\n", substr($0, 2); next }
    /^-/ { printf "%s", text(substr($0, 2)) }
  '
}

measure() { # name, input, command..: what it writes is left in "$work/result"
  local name=$1 input=$2 times
  shift 2
  /usr/bin/time -o "$work/times" -f '%e %M' "$@" >"$work/result" 2>"$work/messages" || true
  times=$(tail -n 1 "$work/times")
  awk -v name="$name" -v size="$(wc -c <"$input")" -v times="$times" 'BEGIN {
    split(times, t, " ")
    printf "%-14s %8.1f MB %7.2f s %8.1f MB/s %8d kB at most\n", name, size / 1e6, t[1], size / 1e6 / (t[1] > 0 ? t[1] : 0.01), t[2]
  }'
}

instructions() { # elements, the program's words before the document..
  document "$1" >"$work/small.esis"
  shift
  valgrind --tool=callgrind --callgrind-out-file="$work/callgrind" "$program" "$@" "$work/small.esis" 2>&1 >/dev/null |
    awk '/Collected/ { print $NF }'
}

slope() { # the program's words before the document..: the slope between two small sizes, with valgrind alone
  command -v valgrind >/dev/null || return 0
  local low high
  low=$(instructions 2000 "$@")
  high=$(instructions 6000 "$@")
  echo "instructions per element: $(((high - low) / 4000))"
}
