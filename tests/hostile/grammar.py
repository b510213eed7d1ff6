"""Which texts are refused for their form: a second reading of docs/language.md and docs/certificate.md, written from these
pages alone, with which the program's answers are compared. Whether a program loads (10 to 15) isn't judged here."""
import re
import sys

sys.setrecursionlimit(10000)

MOST_BYTES, MOST_NUMBER = 1048576, 2147483647
SKIPPED = re.compile(rb"(?:[ \t\r\n]+|//[^\n]*)+")
TOKEN = re.compile(rb'[A-Za-z_][A-Za-z0-9_]*|[0-9]+|"[ !#-~]*"|==|!=|<=|>=|&&|\|\||->|[{}();,.:=<>+\-*!&~]')
NAME = re.compile(rb"[A-Za-z_][A-Za-z0-9_]*")
RESERVED = set(
    b"class property signal slot native wire owns binding notify reads emits sets set emit call if else connect disconnect "
    b"delete later this true false null const auto direct queued unique single".split()
)
KINDS = {b"auto", b"direct", b"queued"}
# A declaration, and the most of it, in a class or in a program, and of the bytes of a program and of a name that it declares: by
# the standard limits, and with `--wide`.
STANDARD = {b"bytes": MOST_BYTES, b"name": MOST_BYTES, b"property": 32, b"method": 64, b"class": 256, b"native": 64, b"wire": 1000, b"owns": 1000, b"binding": 1000}
WIDE = {b"bytes": 33554432, b"name": 255, b"property": 256, b"method": 1024, b"class": 8192, b"native": 64, b"wire": 16384, b"owns": 16384, b"binding": 16384}


class Refused(Exception):
    """The text isn't in the grammar."""


def number_of(digits):
    """The number that these digits are, or another that is too large as well."""
    return int(digits.lstrip(b"0")[:20] or b"0")


def tokens(text):
    """The tokens of a text, or None where a byte begins none."""
    found, at = [], 0
    while at < len(text):
        blank = SKIPPED.match(text, at)
        if blank:
            at = blank.end()
            continue
        token = TOKEN.match(text, at)
        if not token:
            return None
        found.append(token[0])
        at = token.end()
    return found


def is_nested_deep(found):
    """Whether too many brackets are open at once, or too many tokens stand together."""
    opened = together = 0
    for token in found:
        opened += (token in (b"(", b"{")) - (token in (b")", b"}") and opened > 0)
        together = 0 if token in (b";", b"{", b"}") else together + 1
        if opened > 32 or together > 200:
            return True
    return False


def program_refusal(text, is_wide=False):
    """The number from 2 to 7 for which a program is refused, or None."""
    limits = WIDE if is_wide else STANDARD
    if len(text) > limits[b"bytes"]:
        return 7
    found = tokens(text)
    if found is None:
        return 4
    if is_nested_deep(found):
        return 6
    reading = Reading(found, limits)
    try:
        reading.program()
    except Refused:
        return 5
    return 2 if reading.has_reference else 3 if reading.is_long else 7 if reading.is_large else None


def script_refusal(text):
    """7, the line of the first that is no event, or None: as `refused 7`, `refused 16 line n`."""
    if len(text) > MOST_BYTES:
        return b"refused 7\n"
    for number, line in enumerate(text.split(b"\n"), 1):
        if not is_line(line, Reading.event):
            return b"refused 16 line %d\n" % number
    return None


def is_certificate(text):
    """Whether a text is a certificate."""
    found = next(filter(None, map(tokens, text.split(b"\n"))), [])
    is_second = len(found) == 2 and found[1].isdigit() and number_of(found[1]) == 2
    return has_lines(text, [Reading.version, Reading.bound], Reading.node_of_second if is_second else Reading.node)


def is_settling_certificate(text):
    """Whether a text is a settling certificate (docs/settling.md)."""
    return has_lines(text, [Reading.settling_version, Reading.bound_and_step], Reading.node_or_set)


def has_lines(text, first, other):
    """Whether the lines of a text that have tokens are these parts, and then any number of another one."""
    parts = iter(first)
    count = 0
    for line in text.split(b"\n"):
        found = tokens(line)
        if found is None:
            return False
        if found:
            count += 1
            if not is_line(line, next(parts, other)):
                return False
    return count >= len(first)


def is_line(line, part):
    """Whether a line has no tokens, or is such a part."""
    found = tokens(line)
    if not found:
        return found is not None
    reading = Reading(found)
    try:
        part(reading)
        return reading.ends() and not reading.has_reference and not reading.is_long
    except Refused:
        return False


class Reading:
    """Reads tokens by the rules of the grammar, each a method."""

    def __init__(self, found, limits=STANDARD):
        self.found, self.at, self.limits = found, 0, limits
        self.has_reference = self.is_long = self.is_large = False
        self.counts = dict.fromkeys(limits, 0)

    def next(self):
        return self.found[self.at] if self.at < len(self.found) else b""

    def ends(self):
        return self.at == len(self.found)

    def take(self):
        token = self.next()
        self.at += 1
        return token

    def has(self, *wanted):
        """Takes the next token if it is one of these."""
        if self.next() in wanted:
            return self.take()
        return None

    def need(self, *wanted):
        for token in wanted:
            if self.take() != token:
                raise Refused

    def name(self):
        if not self.is_name():
            raise Refused
        return self.take()

    def declared(self):
        """A name that is declared here."""
        self.is_large |= len(self.name()) > self.limits[b"name"]

    def is_name(self):
        return bool(NAME.match(self.next())) and self.next() not in RESERVED

    def number(self, most=MOST_NUMBER):
        if not self.next().isdigit() or number_of(self.next()) > most:
            raise Refused
        return number_of(self.take())

    def list_of(self, part):
        """Parts with commas between them: how many there are."""
        part()
        count = 1
        while self.has(b","):
            part()
            count += 1
        return count

    def in_brackets(self, part):
        """As `list_of`, in brackets, where there may be none."""
        self.need(b"(")
        if self.has(b")"):
            return 0
        count = self.list_of(part)
        self.need(b")")
        return count

    def count(self, counts, what, most):
        counts[what] += 1
        self.is_large = self.is_large or counts[what] > most[what]

    # ---- types and signatures

    def type(self):
        const = self.has(b"const")
        self.name()
        if not const:
            const = self.has(b"const")
        if self.has(b"&", b"*") == b"&" and not const:
            self.has_reference = True

    def parameters(self, part):
        self.is_long |= self.in_brackets(part) > 8

    def signature(self):
        self.name()
        self.parameters(self.type)

    def named_type(self):
        self.type()
        self.declared()

    def type_and_name(self):
        self.type()
        if self.is_name():
            self.declared()

    # ---- programs

    def program(self):
        while not self.ends():
            word = self.take()
            if word not in (b"class", b"wire", b"owns", b"binding"):
                raise Refused
            self.count(self.counts, word, self.limits)
            {b"class": self.klass, b"wire": self.wire, b"owns": self.owns, b"binding": self.binding}[word]()

    def klass(self):
        self.declared()
        if self.has(b":"):
            self.name()
        self.need(b"{")
        counts = dict.fromkeys((b"property", b"method"), 0)
        while not self.has(b"}"):
            word = self.take()
            if word not in (b"property", b"signal", b"slot", b"native"):
                raise Refused
            self.count(counts, word if word == b"property" else b"method", self.limits)
            {b"property": self.property, b"signal": self.signal, b"slot": self.slot, b"native": self.native}[word]()
        self.has(b";")

    def property(self):
        self.named_type()
        if self.has(b"="):
            self.literal()
        if self.has(b"notify"):
            self.signature()
        self.need(b";")

    def signal(self):
        self.declared()
        self.parameters(self.type_and_name)
        self.need(b";")

    def slot(self):
        self.declared()
        self.parameters(self.named_type)
        self.block()

    def native(self):
        self.count(self.counts, b"native", self.limits)
        self.declared()
        self.parameters(self.type_and_name)
        for word, part in ((b"reads", self.name), (b"emits", self.signature), (b"sets", self.name)):
            if self.has(word):
                self.list_of(part)
        self.need(b";")

    def wire(self):
        self.name()
        self.signature()
        self.need(b"->")
        self.name()
        self.signature()
        self.kind()
        self.need(b";")

    def kind(self):
        if self.take() not in KINDS:
            raise Refused

    def owns(self):
        self.name()
        self.name()
        self.need(b";")

    def formal(self):
        self.name()
        self.declared()

    def binding(self):
        self.declared()
        self.name()
        self.need(b".")
        self.name()
        self.parameters(self.formal)
        self.need(b"=")
        self.expression(self.source)
        self.need(b";")

    # ---- bodies

    def block(self):
        self.need(b"{")
        while not self.has(b"}"):
            self.statement()

    def statement(self):
        word = self.take()
        if word == b"if":
            self.need(b"(")
            self.expression(self.value_or_path)
            self.need(b")")
            self.block()
            if self.has(b"else"):
                self.block()
            return
        if word == b"group":
            self.group()
            return
        if word == b"set":
            self.assignment()
        elif word == b"emit":
            self.name()
            self.in_brackets(self.argument)
        elif word == b"call":
            self.path(least=2)
            self.in_brackets(self.argument)
        elif word in (b"connect", b"disconnect"):
            self.ends_of_connection(word)
        elif word in (b"delete", b"later"):
            self.path(least=1)
        else:
            raise Refused
        self.need(b";")

    def assignment(self):
        """What follows `set`, up to the `;`."""
        self.path(least=2)
        self.need(b"=")
        self.expression(self.value_or_path)

    def group(self):
        """What follows `group`: its sets, of which there is one at least."""
        self.need(b"{", b"set")
        self.assignment()
        self.need(b";")
        while not self.has(b"}"):
            self.need(b"set")
            self.assignment()
            self.need(b";")

    def ends_of_connection(self, word):
        for comma in (b"", b","):
            if comma:
                self.need(comma)
            self.path(least=1)
            self.need(b",")
            self.signature()
        if word == b"connect":
            self.need(b",")
            self.kind()
            for option in (b"unique", b"single"):
                if self.found[self.at : self.at + 2] == [b",", option]:
                    self.at += 2

    def path(self, least):
        """A path of so many names at least, `this` among them."""
        if not self.has(b"this"):
            self.name()
        count = 1
        while self.has(b"."):
            self.name()
            count += 1
        if count < least:
            raise Refused

    # ---- expressions

    def argument(self):
        self.expression(self.value_or_path)

    def expression(self, leaf):
        self.grouped(lambda: self.grouped(lambda: self.comparison(leaf), b"&&"), b"||")

    def grouped(self, part, *operators):
        part()
        while self.has(*operators):
            part()

    def comparison(self, leaf):
        self.sum(leaf)
        if self.has(b"==", b"!=", b"<", b"<=", b">", b">="):
            self.sum(leaf)

    def sum(self, leaf):
        self.grouped(lambda: self.grouped(lambda: self.factor(leaf), b"*"), b"+", b"-")

    def factor(self, leaf):
        while self.has(b"!", b"-"):
            pass
        if self.has(b"("):
            self.expression(leaf)
            self.need(b")")
        elif self.next().isdigit():
            self.number()
        elif self.next().startswith(b'"'):
            self.text()
        elif not self.has(b"true", b"false"):
            leaf()

    def text(self):
        if len(self.take()) > 255 + 2:
            raise Refused

    def value_or_path(self):
        if not self.has(b"null"):
            self.path(least=1)

    def source(self):
        self.name()
        self.need(b".")
        self.name()

    def literal(self):
        if self.has(b"-"):
            self.number(MOST_NUMBER + 1)
        elif self.next().isdigit():
            self.number()
        elif self.next().startswith(b'"'):
            self.text()
        elif not self.has(b"true", b"false", b"null"):
            raise Refused

    # ---- scripts

    def event(self):
        word = self.take()
        if word in (b"loop", b"turn", b"block", b"unblock", b"delete", b"later"):
            self.name()
        elif word in (b"adopt", b"move"):
            self.formal()
        elif word == b"new":
            self.formal()
            if not self.ends():
                self.name()
        elif word == b"bind":
            self.formal()
            while not self.ends():
                self.name()
        elif word in (b"connect", b"disconnect"):
            self.connection(word)
        elif word in (b"set", b"emit", b"call"):
            self.source()
            if word == b"set":
                self.value()
            else:
                self.in_brackets(self.value)
        else:
            raise Refused

    def connection(self, word):
        for _ in range(2):
            self.name()
            self.signature()
        if word == b"connect":
            self.kind()
            self.has(b"unique")
            self.has(b"single")

    def value(self):
        if self.is_name():
            self.name()
        else:
            self.literal()

    # ---- certificates

    def version(self):
        self.need(b"certificate")
        if self.number() not in (1, 2):
            raise Refused

    def bound(self):
        self.need(b"bound")
        self.number()

    def node(self):
        self.ranked()
        while not self.ends():
            self.name()

    def node_of_second(self):
        """As version 2 has it: an item of a set may be `~C`."""
        self.ranked()
        self.items_of_second()

    def items_of_second(self):
        while not self.ends():
            self.has(b"~")
            self.name()

    def ranked(self):
        self.named()
        self.number()

    def named(self):
        if self.has(b"~"):
            self.name()
        else:
            self.source()
            if self.next() == b"(":
                self.parameters(self.type)

    # ---- settling certificates

    def settling_version(self):
        self.need(b"settling")
        if self.number() != 1:
            raise Refused

    def bound_and_step(self):
        self.bound()
        self.number()

    def node_or_set(self):
        """The line of a set, which has a number behind `round`; or that of a node, as version 2 has it, with a step."""
        if self.next() == b"round" and self.found[self.at + 1 : self.at + 2] != [b"."]:
            self.need(b"round")
            self.number()
            self.named()
            while not self.ends():
                self.named()
        else:
            self.ranked()
            self.number()
            self.items_of_second()
