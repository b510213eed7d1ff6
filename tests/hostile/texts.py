"""Texts that were made to be a nuisance: random ones, worked ones that were changed, and the worst of each form."""
import re

import grammar

MEBIBYTE = 1 << 20
TOKEN = re.compile(rb'[A-Za-z_][A-Za-z0-9_]*|[0-9]+|"[^"\n]*"|[^\sA-Za-z0-9_]')
LINE = re.compile(rb"[^\n]*\n|[^\n]+")
WORDS = sorted(grammar.RESERVED) + (
    b"new loop turn adopt move bind block unblock main certificate bound move group int bool QString QObject"
).split()
NAMES = (
    b"a b c s t x y A B C f g p q value destroyed objectName objectNameChanged deleteLater Doubler twice out done"
).split()
VALUES = b'0 1 7 256 2147483647 2147483648 99999999999999999999 "" "text"'.split() + [b'"' + b"x" * 256 + b'"']
SYMBOLS = b"{ } ( ) ; , . : = == != < <= > >= + - * ! && || -> & ~ %% // \n".split(b" ")
ODD = [b"|", b"#", b"'", b'"', b"\0", b"\xc8", b"\r", b"\t", b"%%\n", b"\n%%\n", b"/*", b"\xe2\x82\xac"]


def random_token(rng):
    return rng.choice(rng.choice((WORDS, NAMES, VALUES, SYMBOLS, SYMBOLS)))


def random_tokens(rng):
    """Tokens with blanks between them, and texts parted by `%%` here and there."""
    found = [random_token(rng) for _ in range(rng.randrange(1, 60))]
    for _ in range(rng.randrange(3)):
        found.insert(rng.randrange(len(found) + 1), b"\n%%\n")
    return b" ".join(found)


def random_bytes(rng):
    return bytes(rng.choices(range(256), k=rng.randrange(200)))


def changed(rng, text, others):
    """The text with one to three changes, some with parts of the others."""
    for _ in range(rng.randrange(1, 4)):
        change = rng.choice((change_token, change_token, change_token, change_line, change_bytes, join_with))
        text = change(rng, text, others)
    return text


def span(rng, form, text):
    """A place of this form in a text."""
    found = [it.span() for it in form.finditer(text)]
    return rng.choice(found) if found else (0, 0)


def change_token(rng, text, others):
    """A token goes, stands twice, or gives way to another one, of the text itself or of any."""
    start, end = span(rng, TOKEN, text)
    other_start, other_end = span(rng, TOKEN, text)
    token, other = text[start:end], text[other_start:other_end]
    return text[:start] + rng.choice((b"", token + b" " + token, other, other, random_token(rng))) + text[end:]


def change_line(rng, text, others):
    """A line goes, stands twice, or changes its place, perhaps to another text of the input."""
    start, end = span(rng, LINE, text)
    at = span(rng, LINE, text)[0]
    line = text[start:end]
    rest = text[:start] + text[end:]
    return rng.choice((rest, text[:at] + line + text[at:], rest[:at] + line + rest[at:]))


def change_bytes(rng, text, others):
    at, end = rng.randrange(len(text) + 1), rng.randrange(len(text) + 1)
    added = rng.choice((rng.choice(ODD), bytes([rng.randrange(256)])))
    return rng.choice((text[:at], text[:at] + added + text[at:], text[: min(at, end)] + text[max(at, end) :]))


def join_with(rng, text, others):
    """The front of one text with the end of another."""
    other = rng.choice(others)
    return text[: rng.randrange(len(text) + 1)] + other[rng.randrange(len(other) + 1) :]


def repeated(piece, head=b"", tail=b""):
    """A text of a MiB, as near as the piece allows."""
    return head + piece * ((MEBIBYTE - len(head) - len(tail)) // len(piece)) + tail


def numbered(form, count):
    return b"".join(form % {b"n": it} for it in range(count))


def worst(program, certificate, script):
    """The worst texts of each form, of a MiB where nothing else is said: of each a name, words and an input. The texts that
    are given are worked ones, whose places they take."""
    nine = b"int," * 8 + b"int"
    eight = b"int," * 7 + b"int"
    for name, text in programs(nine, eight):
        yield f"{name}: certify", ["certify"], text
        yield f"{name}: run", ["run", "--unchecked", "256", "--steps", "1000"], text + b"\n%%\n" + script
    for name, text in certificates(certificate, nine):
        yield f"{name}: check", ["check"], program + b"%%\n" + text
        yield f"{name}: run", ["run", "--steps", "1000"], program + b"%%\n" + text + b"\n%%\n" + script
    for name, text in scripts(nine):
        yield f"{name}: run --unchecked", ["run", "--unchecked", "256"], program + b"%%\n" + text
        yield f"{name}: run", ["run"], program + b"%%\n" + certificate + b"%%\n" + text
    for name, text in deep():
        yield f"{name}: run --unchecked", ["run", "--unchecked", "256"], text
    yield "lines `%%`: check", ["check"], repeated(b"%%\n")
    yield "lines `%%` with a carriage return: meta", ["meta"], repeated(b"%%\r\n")


def deep():
    """Programs with scripts that nest as deep as may be, or a tree that is as deep as a script can make it."""
    nested = b"if (true) { " * 29 + b"call this.f(); " + b"} " * 29
    yield "a slot that calls itself", b"class A { slot f() { %s } }\n%%%%\nnew a A\ncall a.f()\n" % nested
    signal = b"class A { signal s(); }\nwire A s() -> A s() direct;\n"
    yield "a signal that leads to itself", signal + b"%%\nnew a A\nconnect a s() a s() direct\nemit a.s()\n"
    noisy = b"class A { property int p notify c(); signal c(); slot f() { set this.p = this.p + 1; } }\n"
    wired = noisy + b"wire A c() -> A f() direct;\n"
    yield "a property that is written again and again", wired + b"%%\nnew a A\nconnect a c() a f() direct\nset a.p 1\n"
    owned = b"class A { property A* next; slot f() { delete this.next; } }\nwire A destroyed() -> A f() direct;\n"
    pair = b"connect a%d destroyed() a%d f() direct\nset a%d.next a%d\n"
    row = numbered(b"new a%(n)d A\n", 300) + b"".join(pair % (it, it + 1, it, it + 1) for it in range(299))
    yield "deletions that bring about deletions", owned + b"%%\n" + row + b"delete a0\n"
    tree = b"".join(b"adopt a%d a%d\n" % (it, it + 1) for it in reversed(range(19999)))
    objects = numbered(b"new a%(n)d A\n", 20000)
    yield "a deep tree", b"class A { }\nowns A A;\n%%\n" + objects + tree + b"delete a0\n"


def programs(nine, eight):
    yield "one brace after another", repeated(b"{")
    yield "one bracket after another", repeated(b"(")
    yield "brackets that open and close", repeated(b"()")
    yield "a body of brackets", repeated(b"(", b"class A { slot f() { if ")
    yield "one long line", repeated(b"class A { } ")
    yield "one long line of a comment", repeated(b"x", b"//")
    yield "one name", repeated(b"a")
    yield "one number", repeated(b"9")
    yield "one text", repeated(b"a", b'"', b'"')
    yield "a text that isn't closed", repeated(b"a", b'"')
    yield "quotes", repeated(b'"')
    yield "100,000 empty lines", b"\n" * 100000
    yield "empty lines", repeated(b"\n")
    yield "lines of a comment", repeated(b"//\n")
    for name, types in (("nine", nine), ("eight", eight)):
        wires = b"wire A s(%s) -> A s(%s) direct;\n" % (types, types) * 1000
        yield f"1,000 wires of {name} types", b"class A { signal s(%s); }\n" % eight + wires
    yield "wires without end", repeated(b"wire A s() -> A s() direct;\n", b"class A { signal s(); }")
    yield "classes without end", repeated(b"class A { }\n")
    yield "classes of other names", numbered(b"class A%(n)d { }\n", 45000)
    yield "owns without end", repeated(b"owns A A;\n", b"class A { }")
    yield "bindings without end", repeated(b"binding b A.p (A a) = a.p;\n", b"class A { property int p; }")
    yield "a body of many statements", repeated(b"emit s(); ", b"class A { signal s(); slot f() { ", b"} }")
    yield "a body of many writes", repeated(b"set this.p = this.p + 1; ", b"class A { property int p; slot f() { ", b"} }")
    group = b"class A { property int p; slot f() { group { "
    yield "a group of many writes", repeated(b"set this.p = this.p + 1; ", group, b"} } }")
    blocks = b"class A { slot f() { " + b"if (true) { " * 29
    yield "nested blocks", repeated(b"if (true) { } else { } ", blocks, b"} " * 31)
    yield "long expressions", repeated(b"set this.p = " + b"-" * 180 + b"1; ", b"class A { property int p; slot f() { ", b"} }")
    yield "long paths", repeated(b"later this" + b".n" * 90 + b"; ", b"class A { property A* n; slot f() { ", b"} }")
    yield "a class of many members", numbered(b"property int p%(n)d;\n", 40000).join((b"class A { ", b"}"))
    yield "bytes that begin no token", repeated(b"\xff")
    yield "zeros", repeated(b"\0")
    yield "carriage returns", repeated(b"\r")
    yield "a chain of 64 classes", chain(64)


def chain(length):
    """Classes below one another, with many members each."""
    member = b"property int p%%(n)d_%d notify c%%(n)d_%d(int); signal c%%(n)d_%d(int);\n"
    members = b"".join(member % (it, it, it) for it in range(30))
    base = [b"class C0 { "] + [b"class C%d : C%d { " % (it, it - 1) for it in range(1, length)]
    return b"".join(head + members % {b"n": it} + b"}\n" for it, head in enumerate(base))


def certificates(certificate, nine):
    head = b"certificate 2\nbound 5\n"
    yield "a certificate of braces", repeated(b"{", head)
    yield "a certificate of one name", repeated(b"a", head)
    yield "a certificate of one number", repeated(b"9", head + b"~A ")
    yield "a bound of many digits", repeated(b"9", b"certificate 1\nbound ")
    yield "a version of many digits", repeated(b"9", b"certificate ")
    yield "a certificate and 100,000 empty lines", certificate + b"\n" * 100000
    yield "a certificate in empty lines", repeated(b"\n", certificate)
    yield "a certificate with one line again and again", repeated(b"~Label 1 Label\n", certificate)
    yield "a certificate with nodes that aren't there", repeated(b"A.b 0\n", certificate)
    yield "a certificate with a large set", repeated(b" Label", certificate.rstrip(b"\n"), b"\n")
    yield "a certificate with a large set of closures", repeated(b" ~Label", certificate.rstrip(b"\n"), b"\n")
    yield "a certificate with a set of tildes", repeated(b" ~", certificate.rstrip(b"\n"), b"\n")
    yield "a certificate with a set of classes that aren't there", repeated(b" A", certificate.rstrip(b"\n"), b"\n")
    yield "a certificate with nine types", repeated(b"A.s(%s) 0\n" % nine, head)
    yield "a certificate of many nodes", head + numbered(b"A%(n)d.b%(n)d(int,A%(n)d*) %(n)d\n", 30000)


def scripts(nine):
    yield "a script of brackets", repeated(b"(")
    yield "a script of one long line", repeated(b" a", b"bind n o")
    yield "a script of one name", repeated(b"a", b"new ")
    yield "a script of one number", repeated(b"9", b"set a.b ")
    yield "a script of one text", repeated(b"a", b'set a.b "', b'"')
    yield "a script with a text that isn't closed", repeated(b"a", b'set a.b "')
    yield "a script of 100,000 empty lines", b"\n" * 100000
    yield "a script of empty lines", repeated(b"\n")
    yield "a script of comments", repeated(b"//\n")
    yield "a script of one comment", repeated(b"x", b"//")
    yield "arguments without end", repeated(b"1,", b"emit a.s(", b"1)")
    yield "arguments that are names", repeated(b"s,", b"new s Source\ncall s.setValue(", b"s)")
    yield "connections of nine types", repeated(b"connect a s(%s) b m(%s) auto\n" % (nine, nine))
    yield "one name that is new again and again", repeated(b"new s Source\n")
    yield "objects of other names", numbered(b"new s%(n)d Source\n", 45000)
    yield "objects that come and go", numbered(b"new s%(n)d Source\ndelete s%(n)d\n", 28000)
    yield "event loops", numbered(b"loop l%(n)d\n", 70000)
    yield "turns without items", repeated(b"turn main\n")
    both, connect = b"new s Source\nnew l Label\n", b"connect s valueChanged(int) l show(int) auto\n"
    yield "connections of one pair", repeated(connect, both)
    yield "connections and ends of them", repeated(connect + b"disconnect s valueChanged(int) l show(int)\n", both)
    yield "posts of deletions", numbered(b"new s%(n)d Source\nlater s%(n)d\n", 28000) + b"turn main\n"
    yield "blocks", repeated(b"block s\nunblock s\n", b"new s Source\n")
    yield "events of objects that aren't there", repeated(b"delete x\n")
