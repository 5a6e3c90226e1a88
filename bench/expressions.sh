#!/usr/bin/env bash
# bench/expressions.sh N: builds the program of bench/expressions, which reads each line as an expression and settles its types, and
# times it on N/10 and on N lines of about 60 bytes; 17,500 are a stylesheet's worth of 1 MiB. Beside it in the same run, where it is
# installed, `xsltproc` reads a stylesheet with the same expressions and runs it on an empty document. Then the program reads the
# longest chains and the deepest nesting that an expression may have. Prints MB/s and peak resident memory.
set -eu
count=${1:?usage: bench/expressions.sh N}
. "$(dirname "$0")/common.sh"

expressions() { # lines
  awk -v n="$1" 'BEGIN {
    for (i = 0; i < n; i++) {
      if (i % 5 == 0) printf "order[@state = \"open\" and @id != \"o%d\"]/note/text()\n", i
      if (i % 5 == 1) printf "(count(order) + %d) * 3 - sum(order/@price) div 4 mod 7\n", i
      if (i % 5 == 2) printf "concat(\"order \", @id, \": \", note, \" (\", %d, \")\") = \"x\"\n", i
      if (i % 5 == 3) printf "ancestor::orders/order[position() < %d]//by | note/@by\n", i
      if (i % 5 == 4) printf "contains(string(note), \"by the end\") or not(@id = \"o%d\")\n", i
    }
  }'
}

as_sheet() { # of such lines, each the value of a variable
  sed -e 's/&/\&amp;/g' -e 's/</\&lt;/g' -e "s/.*/<xsl:variable name=\"v\" select='&'\/>/" -e 's/^.*$/<xsl:if test="0">&<\/xsl:if>/' |
    { printf '<xsl:stylesheet version="1.0" xmlns:xsl="http://www.w3.org/1999/XSL/Transform"><xsl:template match="/">\n'
      cat
      printf '</xsl:template></xsl:stylesheet>\n'; }
}

longest() { # the longest chains and the deepest nesting, one of each kind in 4,096 bytes
  awk 'function many(n, s,  t, i) { for (i = 0; i < n; i++) t = t s; return t }
  BEGIN {
    print many(4095, "-") "1"
    print many(2047, "1+") "1"
    print many(2047, "a/") "a"
    print many(2047, "1,") "1"
    print "a" many(1365, "[1]")
    print many(64, "(") "1" many(64, ")")
    print many(64, "a[") "1" many(64, "]")
    print many(64, "not(") "1" many(64, ")")
    print many(4096, "(")
  }'
}

mkdir -p "$work/build/crates"
cp -r "$here"/crates/sx_* "$work/build/crates"
cp "$here/HANDLES" "$work/build"
mkdir -p "$work/build/crates/expressions/src"
cp "$here/bench/expressions/main.rt.in" "$work/build/crates/expressions/src/main.rt"
{ cat "$here/crates.txt"; echo "expressions: sx_kinds sx_names sx_parse sx_types sqlite_items"; } >"$work/build/crates.txt"
program=$work/build/crates/expressions/out/expressions
(cd "$work/build/crates/expressions" && rt run </dev/null) >"$work/built" 2>&1 || { tail -20 "$work/built" >&2; exit 1; }

for size in $((count / 10)) "$count"; do
  expressions "$size" >"$work/expressions"
  measure "read, typed" "$work/expressions" "$program" <"$work/expressions"
  grep -q "^$size lines, $size expressions, $size with a type," "$work/result"
  if command -v xsltproc >/dev/null; then
    as_sheet <"$work/expressions" >"$work/sheet.xsl"
    echo '<empty/>' >"$work/empty.xml"
    measure "xsltproc" "$work/expressions" xsltproc "$work/sheet.xsl" "$work/empty.xml"
  fi
done
longest >"$work/longest"
measure "longest" "$work/longest" "$program" <"$work/longest"
cat "$work/result"
