"""The rules of the README for documents and their copies, read anew here: what lines say, which events they make, where a
document is broken off, and how a result is built and printed. The tests beside this file compare the program with them."""
import re

DEPTH, ATTRIBUTES, LINE, RUN = 200, 256, 1_048_576, 16_777_216
XML = "http://www.w3.org/XML/1998/namespace"
FIRST = (
    "A-Z_a-z\u00c0-\u00d6\u00d8-\u00f6\u00f8-\u02ff\u0370-\u037d\u037f-\u1fff\u200c-\u200d\u2070-\u218f\u2c00-\u2fef"
    "\u3001-\ud7ff\uf900-\ufdcf\ufdf0-\ufffd\U00010000-\U000effff"
)
NCNAME = f"[{FIRST}][{FIRST}\\-.0-9\u00b7\u0300-\u036f\u203f-\u2040]*"
QNAME = re.compile(f"{NCNAME}(:{NCNAME})?")
LIMITS = {"Line", "TextRun", "Attrs", "Depth", "Bytes"}


class Fault(Exception):
    """A document is broken off: what is wrong, and the number of the line where it is known."""

    def __init__(self, which, line=0):
        super().__init__(which)
        self.which, self.line = which, line

    def status(self):
        return 8 if self.which in LIMITS else 4

    def message(self, of):
        limit = "limit-" if self.which in LIMITS else ""
        return f"error {of}-{limit}{self.which} line {self.line}\n".encode()


# ---- lines


def lines_of(data):
    """The lines of some bytes; a rest behind the last newline that is not empty is a line."""
    parts = data.split(b"\n")
    return parts[:-1] + [part for part in parts[-1:] if part]


def unescaped(text):
    """A text without its escapes."""
    result, place = [], 0
    while place < len(text):
        if text[place] != "\\":
            result.append(text[place])
            place += 1
            continue
        found = re.compile(r"\\(\\|n|\||#[0-9]+;|[0-7]{3})").match(text, place)
        if not found:
            raise Fault("BadEscape")
        escape = found.group(1)
        if escape == "|":
            raise Fault("Sdata")
        if escape in ("\\", "n"):
            result.append("\\" if escape == "\\" else "\n")
        else:
            result.append(character(int(escape[1:-1]) if escape[0] == "#" else int(escape, 8), escape[0] == "#"))
        place = found.end()
    return "".join(result)


def character(number, by_number):
    most = 0x10FFFF if by_number else 255
    if not 0 < number <= most or 0xD800 <= number <= 0xDFFF:
        raise Fault("BadEscape")
    return chr(number)


def attribute(rest):
    name, space, kind = rest.partition(" ")
    if not QNAME.fullmatch(name):
        raise Fault("BadCommand")
    if not space:
        raise Fault("BadAttr")
    if kind == "IMPLIED":
        return "implied", name
    kind, _, value = kind.partition(" ")
    if kind not in ("CDATA", "TOKEN", "NOTATION", "ENTITY", "ID"):
        raise Fault("BadAttr")
    return "attribute", name, unescaped(value)


def instruction(rest):
    target = re.split("[ \t\r\n]", rest, maxsplit=1)[0]
    if not re.fullmatch(NCNAME, target):
        raise Fault("BadCommand")
    return "instruction", target, unescaped(rest[len(target):]).lstrip(" \t\r\n")


def said(line):
    """What a line says, as a tuple that begins with its kind."""
    if len(line) > LINE:
        raise Fault("Line")
    if line[:1] and line[:1] in b"L#spfNEISTie_":
        return ("skipped",)
    try:
        text = line.decode("utf-8")
    except UnicodeDecodeError:
        raise Fault("NotUtf8") from None
    if "\0" in text:
        raise Fault("NotUtf8")
    first, rest = text[:1], text[1:]
    if first and first in "&{}Da":
        raise Fault("Unsupported")
    if first == "-":
        return "text", unescaped(rest)
    if first == "?":
        return instruction(rest)
    if first == "A":
        return attribute(rest)
    if first and first in "()" and QNAME.fullmatch(rest):
        return ("start" if first == "(" else "end"), rest
    if text == "C":
        return ("conforming",)
    raise Fault("BadCommand")


# ---- events


def split(name):
    prefix, colon, local = name.partition(":")
    return (prefix, local) if colon else ("", name)


class Events:
    """The events of a document, taken line by line, each with its line. An element is its name, as a prefix, a namespace and a
    local name, and its attributes, each with such a name and a value."""

    def __init__(self):
        self.events, self.count = [], 0
        self.opened, self.scopes = [], [{"xml": XML, "": ""}]
        self.has_root = self.conformed = self.loose = False
        self.attributes, self.text, self.text_line = [], "", 0

    def take(self, line):
        """Takes a line. Text before a fault is an event."""
        self.count += 1
        try:
            said_here = said(line)
            self.place(said_here)
            self.do(said_here)
        except Fault as fault:
            fault.line = self.count
            self.flush()
            raise

    def end(self):
        if not self.has_root or self.opened:
            self.flush()
            raise Fault("Truncated" if self.has_root else "NoRoot", self.count + 1)
        self.flush()
        self.events.append(("close", self.count))

    def flush(self):
        if self.text:
            self.events.append(("text", self.text_line, self.text))
        self.text = ""

    def place(self, line):
        """The faults of a line's place, in their order."""
        kind = line[0]
        behind = self.has_root and not self.opened
        if self.conformed or behind and kind in ("start", "end", "attribute", "implied", "text"):
            raise Fault("AfterRoot")
        if not self.has_root and kind in ("text", "end", "conforming"):
            raise Fault("NoRoot")
        if self.loose and kind not in ("skipped", "attribute", "implied", "start"):
            raise Fault("LooseAttr")
        if kind == "end" and self.opened[-1] != line[1] or kind == "conforming" and self.opened:
            raise Fault("EndMismatch")

    def do(self, line):
        kind = line[0]
        if kind == "text":
            if len((self.text + line[1]).encode()) > RUN:
                raise Fault("TextRun")
            self.text, self.text_line = self.text + line[1], self.count
        elif kind == "attribute":
            if len(self.attributes) == ATTRIBUTES:
                raise Fault("Attrs")
            self.flush()
            self.attributes.append(line[1:])
            self.loose = True
        elif kind == "start":
            self.start(line[1])
        elif kind != "skipped":
            self.flush()
            self.loose = self.loose or kind == "implied"
            self.conformed = kind == "conforming"
            if kind == "end":
                self.opened.pop()
                self.scopes.pop()
                self.events.append(("end", self.count))
            if kind == "instruction":
                self.events.append(("instruction", self.count, *line[1:]))

    def start(self, name):
        spaces = [(split(a)[1] if ":" in a else "", value) for a, value in self.attributes if a == "xmlns" or a.startswith("xmlns:")]
        plain = [(split(a), value) for a, value in self.attributes if not (a == "xmlns" or a.startswith("xmlns:"))]
        if len({prefix for prefix, _ in spaces}) < len(spaces):
            raise Fault("DoubleAttr")
        for prefix, uri in spaces:
            if prefix == "xmlns" or prefix and not uri or (prefix == "xml") != (uri == XML):
                raise Fault("BadAttr")
        if len(self.opened) == DEPTH:
            raise Fault("Depth")
        scope = {**self.scopes[-1], **dict(spaces)}
        prefix, local = split(name)
        if prefix not in scope or any(p and p not in scope for (p, _), _ in plain):
            raise Fault("UnboundPrefix")
        attributes = [((p, scope[p] if p else "", n), value) for (p, n), value in plain]
        if len({attribute_name[1:] for attribute_name, _ in attributes}) < len(attributes):
            raise Fault("DoubleAttr")
        self.flush()
        self.events.append(("start", self.count, (prefix, scope[prefix], local), attributes))
        self.opened.append(name)
        self.scopes.append(scope)
        self.has_root, self.attributes, self.loose = True, [], False


def events_of(data):
    """The events of a document up to its first fault, and that fault or nothing."""
    taken = Events()
    try:
        for line in lines_of(data):
            taken.take(line)
        taken.end()
    except Fault as fault:
        return taken.events, fault
    return taken.events, None


# ---- results


def joined(prefix, local):
    return f"{prefix}:{local}" if prefix else local


class Result:
    """A result, as it is asked for: starts, attributes behind them, ends, texts, processing instructions."""

    def __init__(self):
        self.bytes, self.after_text = b"", False
        self.held, self.opened, self.bound = None, [], [{"xml": XML, "": ""}]

    def fix(self):
        """Writes a start that was held, since something else comes."""
        if self.held is None:
            return
        name, attributes = self.held
        declared, fixed = fix_up(self.bound[-1], name, attributes)
        pairs = [(joined("xmlns", p) if p else "xmlns", uri) for p, uri in declared.items()] + fixed
        for pair, value in pairs:
            self.line(f"A{pair} CDATA {escaped(value)}")
        self.line("(" + joined(name[0], name[2]))
        self.opened.append(joined(name[0], name[2]))
        self.bound.append({**self.bound[-1], **declared})
        self.held = None

    def line(self, line):
        self.bytes += (b"\n" if self.after_text else b"") + line.encode() + b"\n"
        self.after_text = False

    def start(self, name):
        self.fix()
        self.held = (name, [])

    def attribute(self, name, value):
        attributes = self.held[1]
        same = [i for i, (other, _) in enumerate(attributes) if other[1:] == name[1:]]
        place = same[0] if same else len(attributes)
        attributes[place : place + 1] = [(name, value)]

    def end(self):
        self.fix()
        self.line(")" + self.opened.pop())
        self.bound.pop()

    def text(self, text):
        if text:
            self.fix()
            self.bytes += (b"" if self.after_text else b"-") + escaped(text).encode()
            self.after_text = True

    def instruction(self, target, content):
        self.fix()
        self.line(f"?{target} {escaped(content)}" if content else f"?{target}")

    def close(self):
        self.fix()
        self.line("C")


def fix_up(bound, name, attributes):
    """What a start declares, and the printed names and values of its attributes."""
    declared, fixed, used = {}, [], {name[0]}
    if bound.get(name[0]) != name[1]:
        declared[name[0]] = name[1]
    present = {name[0]} | {other[0] for other, _ in attributes}
    for (prefix, uri, local), value in attributes:
        own = prefix
        if uri and not (prefix and {**bound, **declared}.get(prefix) == uri):
            if not prefix or prefix in used:
                number = 0
                while f"ns{number}" in bound or f"ns{number}" in declared or f"ns{number}" in present:
                    number += 1
                prefix = f"ns{number}"
            declared[prefix] = uri
        used.add(own)
        fixed.append((joined(prefix, local), value))
    return declared, fixed


def escaped(text):
    special = {"\\": "\\\\", "\n": "\\n"}
    return "".join(special.get(c, f"\\{ord(c):03o}" if c < " " or c == "\x7f" else c) for c in text)


def copied(events):
    """The result of copying these events."""
    result = Result()
    for kind, _, *rest in events:
        if kind == "start":
            result.start(rest[0])
            for attribute_name, value in rest[1]:
                result.attribute(attribute_name, value)
        elif kind == "end":
            result.end()
        elif kind == "text":
            result.text(rest[0])
        elif kind == "instruction":
            result.instruction(*rest)
        else:
            result.close()
    return result.bytes


def copy_by_the_rules(data):
    """What is written for a document, the line on the diagnostic output, and the status."""
    events, fault = events_of(data)
    return copied(events), fault.message("document") if fault else b"", fault.status() if fault else 0
