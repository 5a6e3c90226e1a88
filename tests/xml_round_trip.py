#!/usr/bin/env python3
"""Takes XML through tools/xml2esis and tools/esis2xml: tables of documents, lines and faults, worked out by hand, and
random documents and long texts, read in random pieces, which must come back with the same events.

usage: xml_round_trip.py [SEED]
"""
import importlib.machinery
import importlib.util
import io
import pathlib
import random
import subprocess
import sys
from xml.parsers import expat

TOOLS = pathlib.Path(__file__).resolve().parent.parent / "tools"

# XML, its lines, and what the case shows.
DOCUMENTS = [
    ("<a/>", "(a\n)a\nC\n", "an empty element"),
    ("<a>x<b>y</b>z</a>", "(a\n-x\n(b\n-y\n)b\n-z\n)a\nC\n", "elements and texts"),
    ("<a>\n  <b/>\n</a>", "(a\n-\\n  \n(b\n)b\n-\\n\n)a\nC\n", "white space is text"),
    ("\n<a/>\n", "(a\n)a\nC\n", "white space outside the root is none"),
    ("<a>x<!-- -y- -->z</a>", "(a\n-xz\n)a\nC\n", "a comment parts no text"),
    ("<a><!-- --></a>", "(a\n)a\nC\n", "no empty text"),
    ("<a><![CDATA[]]></a>", "(a\n)a\nC\n", "nor from an empty section"),
    ("<a>x<![CDATA[<&]]>y</a>", "(a\n-x<&y\n)a\nC\n", "a section is a part of its text"),
    ("<a>&lt;&amp;&gt;&quot;&apos;]]&gt;</a>", "(a\n-<&>\"']]>\n)a\nC\n", "references"),
    ("<a>\\ \\n \\\\</a>", "(a\n-\\\\ \\\\n \\\\\\\\\n)a\nC\n", "each backslash is doubled"),
    ("<a>x&#10;&#13;&#9;y&#127;</a>", "(a\n-x\\n\\015\\011y\\177\n)a\nC\n", "control characters"),
    ("<a>x\r\ny\rz</a>", "(a\n-x\\ny\\nz\n)a\nC\n", "ends of lines are newlines"),
    ("<a>é\u0085\u2028€\U0001f600</a>", "(a\n-é\u0085\u2028€\U0001f600\n)a\nC\n", "characters of 2, 3 and 4 bytes"),
    ("<a x='1' é=''/>", "Ax CDATA 1\nAé CDATA \n(a\n)a\nC\n", "attributes, one of them empty"),
    ("<a b='&quot;&apos;&lt;&amp;>'/>", "Ab CDATA \"'<&>\n(a\n)a\nC\n", "references in a value"),
    ("<a b=' x\ty\nz&#9;&#10;&#13;\\'/>", "Ab CDATA  x y z\\011\\n\\015\\\\\n(a\n)a\nC\n", "white space in a value"),
    (
        "<p:a z='0' xmlns:p='u' p:y='1' xmlns='v'/>",
        "Az CDATA 0\nAxmlns:p CDATA u\nAp:y CDATA 1\nAxmlns CDATA v\n(p:a\n)p:a\nC\n",
        "prefixes, and declarations in their places",
    ),
    ("<a><b c=''/></a>", "(a\nAc CDATA \n(b\n)b\n)a\nC\n", "attributes of an inner element"),
    ("<?p?><a><?q  r s ?></a><?t x\\\ny?>", "?p\n(a\n?q r s \n)a\n?t x\\\\\\ny\nC\n", "processing instructions"),
    ("<a>x<?p?>y</a>", "(a\n-x\n?p\n-y\n)a\nC\n", "a processing instruction parts a text"),
    (
        "<!DOCTYPE a [<!ENTITY e 'f<b/>g'><!ATTLIST a d CDATA 'h'>]><a>&e;</a>",
        "Ad CDATA h\n(a\n-f\n(b\n)b\n-g\n)a\nC\n",
        "what the document type declares",
    ),
    ("<!DOCTYPE a SYSTEM 'e'><a/>", "(a\n)a\nC\n", "what stands elsewhere is not read"),
]

# XML, the lines of what stands before the fault, and what the case shows.
XML_FAULTS = [
    ("", "", "no document"),
    ("<a>x", "(a\n-x\n", "the end is missing"),
    ("<a>x &y</a>", "(a\n-x \n", "no reference"),
    ("<a><b></a>", "(a\n(b\n", "the end of another element"),
    ("<a/><b/>", "(a\n)a\n", "a second root"),
    ("<a x='1' x='2'/>", "", "an attribute twice"),
    ("<a>x&e;</a>", "(a\n-x\n", "an entity that is not declared"),
    ("<!DOCTYPE a SYSTEM 'e'><a>x&e;</a>", "(a\n-x\n", "an entity that may be declared elsewhere"),
    ("<!DOCTYPE a [<!ENTITY e SYSTEM 'e'>]><a>x&e;</a>", "(a\n-x\n", "an entity that stands elsewhere"),
    ("<?xml version='1.0' encoding='none'?><a/>", "", "an unknown encoding"),
]

# Lines that xml2esis does not write, their XML, and what the case shows.
LINES = [
    ("C\n", "", "nothing"),
    ("(a\n)a\nC", "<a></a>", "the last newline may be missing"),
    ("-x\n-\n-y\n(a\n)a\n(b\n)b\nC\n", "xy<a></a><b></b>", "a fragment; texts behind one another"),
    ("L1 f\n_\nAa CDATA 1\n#\n(e\n)e\nC\n", '<e a="1"></e>', "skipped lines, also before a start"),
    ("Aa IMPLIED\nAb TOKEN\nAc ID  x\n(e\n)e\nC\n", '<e b="" c=" x"></e>', "kinds of attributes"),
    ("Aa CDATA \\#9;\\n\\#13;\\042<&>'\n(e\n)e\nC\n", "<e a=\"&#9;&#10;&#13;&quot;&lt;&amp;&gt;'\"></e>", "a value"),
    ("-\\#00233;\\351\\134\\\\n\\#128512;\\n\\015\tC\r\nC\n", "éé\\\\n\U0001f600\n&#13;\tC&#13;", "escapes in a text"),
    ("-<&>]]>\"\nC\n", '&lt;&amp;&gt;]]&gt;"', "characters with a meaning in XML"),
    ("?p \t\\n x\\ny\nC\n", "<?p x\ny?>", "white space behind a target"),
]

# Lines, the XML of what stands before the fault, and what the case shows.
LINE_FAULTS = [
    (b"", "", "no C"),
    (b"(a\n-x\n)a\n", "<a>x</a>", "no C behind a document"),
    (b"(a\n)a\nC\n-x\n", "<a></a>", "a line behind C"),
    (b"(a\n)a\nCx\n", "<a></a>", "more behind C"),
    (b"(a\nC\n", "<a>", "an open element"),
    (b"(a\n(b\n)a\nC\n", "<a><b>", "the end of an outer element"),
    (b")a\nC\n", "", "an end without a start"),
    (b"-x\n\n-y\nC\n", "x", "an empty line"),
    (b"-x\n&e\nC\n", "x", "an unknown line"),
    (b"-x\n(a b\nC\n", "x", "no name of an element"),
    (b"-x\n-y\\q\nC\n", "x", "an unknown escape"),
    (b"-x\n-\\|y\\|\nC\n", "x", "an escape that XML has not"),
    (b"-x\n-\\#1114112;\nC\n", "x", "a number beyond the characters"),
    (b"-x\n-\\001\nC\n", "x", "a character that XML has not"),
    (b"-x\n-\\000\nC\n", "x", "a zero"),
    (b"-x\n-\xff\nC\n", "x", "bytes that are no UTF-8"),
    (b"-x\nAa\nC\n", "x", "an attribute without a kind"),
    (b"-x\nAa DATA y\nC\n", "x", "an unknown kind"),
    (b"Aa CDATA y\n-x\nC\n", "", "an attribute before a text"),
    (b"Aa CDATA y\nAa CDATA z\n(e\n)e\nC\n", "", "an attribute twice"),
    (b"-x\n?\nC\n", "x", "no target"),
    (b"-x\n?xml y\nC\n", "x", "the target of the declaration of XML"),
    (b"-x\n?p y?>z\nC\n", "x", "the end of a processing instruction in it"),
    (b"-x\n?p y\\015\nC\n", "x", "a carriage return in a processing instruction"),
]

PARTS = [
    "x", "word ", " ", "\n", "\r\n", "\t", "-", "C", ">", "'", "\\", "\\n", "\\012", "\\#10;", "&quot;", "&lt;",
    "&amp;", "&#9;", "&#10;", "&#13;", "&#127;", "\u0085", "é", "\u2028", "€", "名", "\U0001f600", "&#x10ffff;",
    "&#xfffd;",
]
SECTIONS = ["<![CDATA[<b>&amp;]]>", "<![CDATA[]]>", "<![CDATA[\\\n]]>", "]]&gt;", "<!-- no - text -->", '"']
INSTRUCTIONS = ["<?p?>", "<?p-1   q  ?>", "<?é \\ \\n?>", "<?xml-stylesheet href='é'\n\ttype=\"\U0001f600\"??>"]
NAMES = ["a", "b.c", "_d-1", "é", "名前", "ก-"]


def run(tool, data):
    """What a tool writes for some bytes, the number of its lines on standard error, and its status."""
    done = subprocess.run([TOOLS / tool], input=data, capture_output=True, check=False)
    return done.stdout.decode(), done.stderr.count(b"\n"), done.returncode


def expect(tool, data, expected, why):
    given = run(tool, data)
    if given != expected:
        sys.exit(f"{tool}, {why}: {data!r} gave {given!r}, and not {expected!r}")


def events_of(xml):
    """The events of an XML document, each run of text as one."""
    events = []

    def text(characters):
        if events[-1][0] == "text":
            characters = events.pop()[1] + characters
        events.append(("text", characters))

    parser = expat.ParserCreate()
    parser.ordered_attributes = True
    parser.buffer_text = True
    parser.StartElementHandler = lambda *start: events.append(("start", *start))
    parser.EndElementHandler = lambda name: events.append(("end", name))
    parser.CharacterDataHandler = text
    parser.ProcessingInstructionHandler = lambda *instruction: events.append(("instruction", *instruction))
    parser.Parse(xml, True)
    return events


def load(tool):
    """A tool as a module."""
    loader = importlib.machinery.SourceFileLoader(tool, str(TOOLS / tool))
    module = importlib.util.module_from_spec(importlib.util.spec_from_loader(tool, loader))
    loader.exec_module(module)
    return module


class Pieces(io.BytesIO):
    """Bytes that are read in random pieces, most of them small."""

    def __init__(self, data, rng):
        super().__init__(data)
        self.rng = rng

    def read1(self, size):
        return super().read1(self.rng.choice([1, 2, 7, 100, size]))


class Tools:
    """Both tools, which read in random pieces."""

    def __init__(self, rng):
        self.rng = rng
        self.xml2esis, self.esis2xml = load("xml2esis"), load("esis2xml")

    def round_trip(self, xml, why):
        """Takes a document through both tools and compares the events."""
        lines, back = io.StringIO(), io.StringIO()
        self.xml2esis.convert(Pieces(xml.encode(), self.rng), lines)
        self.esis2xml.convert(Pieces(lines.getvalue().encode(), self.rng), back)
        if events_of(back.getvalue()) != events_of(xml):
            sys.exit(f"{why}: {xml!r} gave {lines.getvalue()!r} and {back.getvalue()!r}")


def run_tables(tools):
    for xml, lines, why in DOCUMENTS:
        expect("xml2esis", xml.encode(), (lines, 0, 0), why)
        tools.round_trip(xml, why)
    for encoding in ["utf-8-sig", "utf-16", "iso-8859-1"]:
        head = "" if encoding.startswith("utf") else f"<?xml version='1.0' encoding='{encoding}'?>"
        expect("xml2esis", f"{head}<a>é</a>".encode(encoding), ("(a\n-é\n)a\nC\n", 0, 0), encoding)
    for xml, lines, why in XML_FAULTS:
        expect("xml2esis", xml.encode(), (lines, 1, 1), why)
    for lines, xml, why in LINES:
        expect("esis2xml", lines.encode(), (xml, 0, 0), why)
    for data, xml, why in LINE_FAULTS:
        expect("esis2xml", data, (xml, 1, 1), why)


def random_text(rng, parts):
    return "".join(rng.choices(parts, k=rng.randrange(8)))


def random_start(rng, prefixes):
    """The name and the attributes of an element in which some prefixes are declared, and those declared inside it."""
    declared = [prefix for prefix in ["p", "q-1", "é"] if rng.random() < 0.2]
    attributes = [f"xmlns:{prefix}='urn:{prefix}'" for prefix in declared]
    if rng.random() < 0.2:
        attributes.append(rng.choice(["xmlns=''", "xmlns='urn:x'", "xmlns='&amp;\\'"]))
    prefixes = prefixes | {prefix + ":" for prefix in declared}
    for name in rng.sample(NAMES, rng.randrange(4)):
        value = random_text(rng, PARTS).replace("'", '"')
        attributes.append(f"{rng.choice(sorted(prefixes))}{name}='{value}'")
    rng.shuffle(attributes)
    return rng.choice(sorted(prefixes)) + rng.choice(NAMES), attributes, prefixes


def random_element(rng, depth, prefixes):
    name, attributes, prefixes = random_start(rng, prefixes)
    content = []
    for _ in range(rng.randrange(7)):
        chance = rng.random()
        if chance < 0.4 and depth:
            content.append(random_element(rng, depth - 1, prefixes))
        elif chance < 0.5:
            content.append(rng.choice(INSTRUCTIONS))
        else:
            content.append(random_text(rng, PARTS + SECTIONS))
    return f"<{' '.join([name, *attributes])}>{''.join(content)}</{name}>"


def random_document(rng):
    around = ["", "\n", "<!-- -->", *INSTRUCTIONS]
    return rng.choice(around) + random_element(rng, 5, {""}) + rng.choice(around)


def main():
    seed = int(sys.argv[1]) if len(sys.argv) > 1 else random.SystemRandom().randrange(10**9)
    print(f"seed {seed}", flush=True)
    rng = random.Random(seed)
    tools = Tools(rng)
    run_tables(tools)
    for part in PARTS:
        tools.round_trip(f"<a>{'x' * rng.randrange(8)}{part * 20_000}</a>", "a text of many pieces")
    for number in range(1_000):
        tools.round_trip(random_document(rng), f"document {number}")
    print("the tables, long texts and 1,000 documents: as XML says")


if __name__ == "__main__":
    main()
