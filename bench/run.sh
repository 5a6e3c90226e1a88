#!/usr/bin/env bash
# bench/run.sh N: makes documents of N/10 and of N elements (each an order with a note, attributes, a namespace and escapes), and runs a
# stylesheet on them that renames each element and puts a new one into each order: by the proved program, and, where it
# is installed, in the same run by `xsltproc` with the same stylesheet and document as XML. Prints MB/s and peak resident
# memory; with valgrind, also the program's instructions per element, as the slope between two small sizes.
set -eu
count=${1:?usage: bench/run.sh N}
. "$(dirname "$0")/common.sh"

template() { # name, lines of its body
  printf 'Amatch CDATA %s\n(xsl:template\n%s\n)xsl:template\n' "$1" "$2"
}

sheet() {
  local apply=$'(xsl:apply-templates\n)xsl:apply-templates'
  cat <<'END'
Axmlns:xsl CDATA http://www.w3.org/1999/XSL/Transform
Axmlns:xs CDATA http://www.w3.org/2001/XMLSchema
Aversion CDATA 3.0
(xsl:stylesheet
Astreamable CDATA yes
Aon-no-match CDATA text-only-copy
(xsl:mode
)xsl:mode
END
  template orders $'(deliveries\n'"$apply"$'\n)deliveries'
  template order $'(delivery\n(by\n(xsl:text\n-post\n)xsl:text\n)by\n'"$apply"$'\n)delivery'
  template note $'(remark\n'"$apply"$'\n)remark'
  printf ')xsl:stylesheet\nC\n'
}

result() { # elements: what the stylesheet makes of the document
  document "$1" | sed -e '/^A/d' -e 's/^\([()]\)orders$/\1deliveries/' -e 's/^(order$/(delivery\n(by\n-post\n)by/' -e 's/^)order$/)delivery/' \
    -e 's/^\([()]\)note$/\1remark/'
}

sheet_as_xml() {
  cat <<'END'
<xsl:stylesheet version="1.0" xmlns:xsl="http://www.w3.org/1999/XSL/Transform">
<xsl:template match="orders"><deliveries><xsl:apply-templates/></deliveries></xsl:template>
<xsl:template match="order"><delivery><by>post</by><xsl:apply-templates/></delivery></xsl:template>
<xsl:template match="note"><remark><xsl:apply-templates/></remark></xsl:template>
</xsl:stylesheet>
END
}

sheet >"$work/sheet.esis"
sheet_as_xml >"$work/sheet.xsl"
"$here/sx" run "$work/sheet.esis" "$here/examples/order.esis" >"$work/built"
for size in $((count / 10)) "$count"; do
  document "$size" >"$work/document.esis"
  result "$size" >"$work/expected.esis"
  measure "sx run" "$work/document.esis" "$program" run "$work/sheet.esis" "$work/document.esis"
  cmp "$work/expected.esis" "$work/result"
  if command -v xsltproc >/dev/null; then
    as_xml <"$work/document.esis" >"$work/document.xml"
    measure "xsltproc" "$work/document.xml" xsltproc "$work/sheet.xsl" "$work/document.xml"
  fi
done
slope run "$work/sheet.esis"
