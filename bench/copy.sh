#!/usr/bin/env bash
# bench/copy.sh N: makes documents of N/10 and of N elements (each an order with a note, attributes, a namespace and escapes) and
# copies them by the proved program; beside it in the same run, where it is installed, `onsgmls` reads the same document as XML and
# prints its lines, and `cat` copies the bytes. Prints MB/s and peak resident memory; with valgrind, also the program's
# instructions per element, as the slope between two small sizes.
set -eu
count=${1:?usage: bench/copy.sh N}
. "$(dirname "$0")/common.sh"
declaration=/usr/share/xml/declaration/xml.dcl

"$here/sx" copy "$here/examples/order.esis" >"$work/built"
for size in $((count / 10)) "$count"; do
  document "$size" >"$work/document.esis"
  copied <"$work/document.esis" >"$work/expected.esis"
  measure "sx copy" "$work/document.esis" "$program" copy "$work/document.esis"
  cmp "$work/expected.esis" "$work/result"
  if command -v onsgmls >/dev/null && [ -r "$declaration" ]; then
    as_xml <"$work/document.esis" >"$work/document.xml"
    SP_CHARSET_FIXED=YES SP_ENCODING=UTF-8 measure "onsgmls" "$work/document.xml" onsgmls -wxml -wno-valid -E0 "$declaration" "$work/document.xml"
  fi
  measure "cat" "$work/document.esis" cat "$work/document.esis"
done
slope copy
