#!/usr/bin/env bash
# tests/real.sh PROGRAM: takes XML documents that the machine has through onsgmls (of OpenSP) and through tools/xml2esis, copies
# their lines by the program, and checks that each copy is the same document. What the machine lacks is left out.
set -eu
program=${1:?usage: tests/real.sh PROGRAM}
here=$(cd "$(dirname "$0")/.." && pwd)
declaration=/usr/share/xml/declaration/xml.dcl
work=$(mktemp -d)
trap 'rm -rf "$work"' EXIT
count=0

check() { # what the lines come from, the document; the lines are in "$work/lines"
  "$program" copy "$work/lines" >"$work/copy" || { echo "$2 by $1: not copied" >&2 && exit 1; }
  python3 "$here/tests/same_document.py" "$work/lines" "$work/copy" || { echo "$2 by $1: another document" >&2 && exit 1; }
  count=$((count + 1))
}

command -v python3 >/dev/null || { echo "no python3: no document of the machine's copied" && exit 0; }
for document in /usr/share/mime/packages/freedesktop.org.xml /usr/share/xml/iso-codes/iso_*.xml /usr/share/X11/xkb/rules/base.xml; do
  [ -r "$document" ] || continue
  "$here/tools/xml2esis" "$document" >"$work/lines" 2>"$work/messages" || continue
  check xml2esis "$document"
  if command -v onsgmls >/dev/null && [ -r "$declaration" ]; then
    SP_CHARSET_FIXED=YES SP_ENCODING=UTF-8 onsgmls -wxml -wno-valid "$declaration" "$document" >"$work/lines" 2>"$work/messages" || continue
    check onsgmls "$document"
  fi
done
echo "$count documents of the machine's copied: the same documents"
