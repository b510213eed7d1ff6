#!/usr/bin/env python3
"""Measures the built program on inputs that are made here, for docs/tested.md: user seconds and the most memory of each, as
the least of some runs. Nothing of it is part of the gate.
Usage: bench/measure.py [ROW..]   (default: every row; the program is built first, as ./gammonfig builds it)"""
import os
import random
import subprocess
import sys
import tempfile

ROOT = os.path.dirname(os.path.dirname(os.path.abspath(__file__)))
sys.path.insert(0, f"{ROOT}/bin")
import kit
import sources
from store import Store

RUN = ["run", "--unchecked", "256", "--steps", "9000000000"]
TIMES = 3


def name(number):
    """A short name that is no reserved word: letters for the number, and a 0."""
    letters = "abcdefghijklmnopqrstuvwxyzABCDEFGHIJKLMNOPQRSTUVWXYZ"
    text, number = "", number + 1
    while number:
        number -= 1
        text = letters[number % 52] + text
        number //= 52
    return text + "0"


def joined(program, lines):
    return program + "\n%%\n" + "\n".join(lines) + "\n"


def short(number):
    """A name of three bytes, which is no reserved word either, since it begins with a capital: there are 99,944 of them."""
    others = "0123456789abcdefghijklmnopqrstuvwxyzABCDEFGHIJKLMNOPQRSTUVWXYZ"
    return others[36 + number // 3844] + others[number // 62 % 62] + others[number % 62]


FOLLOWED = "class X { property int x; } class Y { property int y; } class Q { property int q; } binding b Y.y (X a) = a.x + 1;"
NODES = "class N { } owns N N;"
CREATED = 'class A { property int n = 1; property QString t = "none"; property A* next; signal s(); }'
# So many statements are in a slot that does one thing again and again.
AGAIN = 100


def followers(count):
    return ["new x X", "new q Q"] + [f"new {name(i)} Y\nbind b {name(i)} x" for i in range(count)]


def children(count):
    return ["new p_ N", "new q_ N"] + [f"new {name(i)} N\nadopt p_ {name(i)}" for i in range(count)]


def moved_last(count):
    return joined(NODES, children(count) + [f"adopt q_ {name(i)}" for i in reversed(range(count))])


def deleted_last(count):
    return joined(NODES, children(count) + [f"delete {name(i)}" for i in reversed(range(count))])


def chain(length, writes):
    classes = " ".join(f"class C{i} {{ property int p; }}" for i in range(length + 1))
    sites = " ".join(f"binding b{i} C{i + 1}.p (C{i} a) = a.p + 1;" for i in range(length))
    objects = [f"new c{i} C{i}" for i in range(length + 1)] + [f"bind b{i} c{i + 1} c{i}" for i in range(length)]
    return joined(f"{classes} {sites}", objects + [f"set c0.p {i + 1}" for i in range(writes)])


def emissions(slots, count):
    program = "class A { signal s(int); } class B { property int n; slot f(int v) { set this.n = v; } } wire A s(int) -> B f(int) direct;"
    objects = ["new a A"] + [f"new {name(i)} B\nconnect a s(int) {name(i)} f(int) direct" for i in range(slots)]
    return joined(program, objects + [f"emit a.s({i})" for i in range(count)])


def posts(loops, count):
    """So many emissions, each posted to every one of the event loops; after each thousand every loop has a turn."""
    program = "class A { signal s(int); } class B { property int n; slot f(int v) { set this.n = v; } } wire A s(int) -> B f(int) queued;"
    script = ["new a A"]
    for i in range(loops):
        script += [f"loop l{i}", f"new b{i} B l{i}", f"connect a s(int) b{i} f(int) queued"]
    for i in range(count):
        script.append(f"emit a.s({i % 10})")
        if (i + 1) % 1000 == 0 or i + 1 == count:
            script += [f"turn l{loop}" for loop in range(loops)]
    return joined(program, script)


def group(sets):
    """A group of so many sets, each of a property of its own: an object has 30 of them, and two steps lead to it."""
    leaves = range((sets + 29) // 30)
    leaf = "class Leaf { " + " ".join(f"property int p{i};" for i in range(30)) + " }"
    middle = "class Mid { " + " ".join(f"property Leaf* b{i};" for i in range(30)) + " }"
    root = "class Root { " + " ".join(f"property Mid* a{i};" for i in range(30))
    written = " ".join(f"set this.a{i // 900}.b{i // 30 % 30}.p{i % 30} = 1;" for i in range(sets))
    script = ["new r Root"] + [f"new m{i} Mid\nset r.a{i} m{i}" for i in range((len(leaves) + 29) // 30)]
    script += [f"new l{i} Leaf\nset m{i // 30}.b{i % 30} l{i}" for i in leaves]
    return joined(f"{leaf} {middle} {root} slot f() {{ group {{ {written} }} }} }}", script + ["call r.f()"])


def unrelated(bindings, calls):
    """Calls of a slot that writes a property again and again, beside so many bindings."""
    written = " ".join(f"set this.q = v + {i};" for i in range(AGAIN))
    program = FOLLOWED.replace("property int q;", f"property int q; slot f(int v) {{ {written} }}")
    return joined(program, followers(bindings) + [f"call q.f({i})" for i in range(calls)])


def deep(count):
    """A chain of objects, each of them adopted by the one before, of which the first is deleted."""
    script = [f"new {short(0)} N"]
    script += [f"new {short(i)} N\nadopt {short(i - 1)} {short(i)}" for i in range(1, count)]
    return joined(NODES, script + [f"delete {short(0)}"])


def wide(count):
    """Children of one parent, which are deleted with it."""
    return joined(NODES, ["new p N"] + [f"new {short(i)} N\nadopt p {short(i)}" for i in range(count)] + ["delete p"])


def later(count):
    """Objects whose deletion is put off, and carried out by a turn after each five thousand."""
    script = []
    for i in range(count):
        script.append(f"new {short(i)} A\nlater {short(i)}")
        if (i + 1) % 5000 == 0 or i + 1 == count:
            script.append("turn main")
    return joined("class A { }", script)


def turns(loops, count):
    """A ring of objects, one in each event loop: each turn delivers the call that the one before has posted."""
    program = "class A { signal s(); slot f() { emit s(); } } wire A s() -> A f() queued;"
    names = [chr(ord("A") + i) for i in range(loops)]
    script = [f"loop {it}\nnew {it} A {it}" for it in names]
    script += [f"connect {names[i - 1]} s() {names[i]} f() queued" for i in range(loops)]
    return joined(program, script + [f"emit {names[-1]}.s()"] + [f"turn {names[i % loops]}" for i in range(count)])


def emissions_beside(others, calls):
    """Calls of a slot that emits again and again a signal with one connection, beside so many connections of the sender's
    other signal, and as many to its receiver."""
    emitted = " ".join(f"emit s(v + {i});" for i in range(AGAIN))
    program = f"class A {{ signal s(int); signal t(int); slot run(int v) {{ {emitted} }} }} "
    program += "class B { signal u(int); property int n; slot f(int v) { set this.n = v; } } "
    program += " ".join(f"wire {it} -> B f(int) direct;" for it in ("A s(int)", "A t(int)", "B u(int)"))
    script = ["new a A", "new b B"]
    for it in map(short, range(others // 2)):
        script += [f"new {it} B", f"connect a t(int) {it} f(int) direct", f"connect {it} u(int) b f(int) direct"]
    return joined(program, script + ["connect a s(int) b f(int) direct"] + [f"call a.run({i})" for i in range(calls)])


CONNECTED = "class B { slot f() { } } wire A s() -> B f() direct;"


def connects(receivers, calls):
    """Calls of a slot that connects two objects and disconnects them, again and again."""
    pair = "connect this, s(), b, f(), direct; disconnect this, s(), b, f();"
    program = f"class A {{ signal s(); slot run(B* b) {{ {' '.join([pair] * AGAIN)} }} }} {CONNECTED}"
    script = ["new a A"] + [f"new {short(i)} B" for i in range(receivers)]
    return joined(program, script + [f"call a.run({short(i % receivers)})" for i in range(calls)])


def shared(rounds, calls):
    """In each round so many times a hundred connections of two objects are made, and then broken at once."""
    made = " ".join(["connect this, s(), b, f(), direct;"] * AGAIN)
    program = f"class A {{ signal s(); slot run(B* b) {{ {made} }} }} {CONNECTED}"
    return joined(program, ["new a A", "new b B"] + (["call a.run(b)"] * calls + ["disconnect a s() b f()"]) * rounds)


def long(calls):
    """So many times a hundred lines of calls."""
    called = " ".join(["call this.g();"] * (AGAIN - 1))
    return joined(f"class A {{ slot g() {{ }} slot f() {{ {called} }} }}", ["new a A"] + ["call a.f()"] * calls)


def bodies(calls):
    """Calls of a slot with a long body of all sorts."""
    part = "set this.n = this.n + v * {0}; emit s(this.n, {0}); call this.g(v, this.t); "
    part += "if (this.n > v && !(this.t == \"no\")) {{ set this.t = \"yes\"; }} else {{ set this.n = v - {0}; set this.t = \"\"; }}"
    body = " ".join(part.format(i) for i in range(AGAIN))
    members = "property int n; property QString t; signal s(int, int); slot g(int v, QString t) { set this.n = v; }"
    return joined(f"class A {{ {members} slot f(int v) {{ {body} }} }}", ["new a A"] + [f"call a.f({i})" for i in range(calls)])


def calls(depth, count):
    """Calls along a chain of so many objects."""
    program = "class N { property N* next; slot f(int v) { if (this.next != null) { call this.next.f(v + 1); } } }"
    script = [f"new n{i} N" for i in range(depth)] + [f"set n{i}.next n{i + 1}" for i in range(depth - 1)]
    return joined(program, script + [f"call n0.f({i})" for i in range(count)])


TREE = "class N { } class X : N { property int x; } class Y : N { property int y; } owns N N; binding b Y.y (X a) = a.x + 1;"


def back_and_forth(root, moves):
    """So many moves of an object to the event loop `io`, and back to `main`."""
    return [f"move {root} {'main' if i % 2 else 'io'}" for i in range(moves)]


def moved_tree(objects, moves):
    """A parent that is moved again and again, with so many objects below it."""
    script = ["loop io", "new r N"] + [f"new {short(i)} N\nadopt r {short(i)}" for i in range(objects)]
    return joined(NODES, script + back_and_forth("r", moves))


def moved_beside_items(items, moves):
    """An object for which a call was posted once is moved again and again, while so many items wait for others."""
    program = "class A { signal s(); slot f() { } } wire A s() -> A f() queued;"
    script = ["loop io", "new a A", "new o A", "connect a s() o f() queued", "emit a.s()", "turn main"]
    script += [f"new {short(i)} A\nlater {short(i)}" for i in range(items)]
    return joined(program, script + back_and_forth("o", moves))


def moved_bound(bindings, moves):
    """A parent is moved again and again, below which are so many bindings, each of an object to another."""
    script = ["loop io", "new r N"]
    for i in range(bindings):
        x, y = short(2 * i), short(2 * i + 1)
        script += [f"new {x} X\nadopt r {x}", f"new {y} Y\nadopt r {y}", f"bind b {y} {x}"]
    return joined(TREE, script + back_and_forth("r", moves))


def bound(bindings):
    """Objects with a binding each, of an object of its own to it."""
    return [f"new {short(2 * i)} X\nnew {short(2 * i + 1)} Y\nbind b {short(2 * i + 1)} {short(2 * i)}" for i in range(bindings)]


def dead_bound(bindings):
    """Objects with a binding each, which are deleted one by one."""
    return joined(TREE, bound(bindings) + [f"delete {short(2 * i)}" for i in range(bindings)])


def written_bound(bindings):
    """Bindings that are ended one by one, each by a write of its property."""
    return joined(TREE, bound(bindings) + [f"set {short(2 * i + 1)}.y {i}" for i in range(bindings)])


def bound_again(bindings):
    """Bindings that are replaced one by one, each by another of its property."""
    return joined(TREE, bound(bindings) + [f"bind b {short(2 * i + 1)} {short(2 * i)}" for i in range(bindings)])


def posted_last(objects):
    """A call is posted for the last of so many objects."""
    return joined("class A { }", [f"new {short(i)} A" for i in range(objects)] + [f"later {short(objects - 1)}"])


def large_program(slots):
    """A program of so many slots, each of which takes about 240 bytes and calls the next one."""
    classes = []
    for at in range(0, slots, 60):
        body = "property int a; property int b = 3; property QString text notify told(QString); signal told(QString);\n"
        for i in range(60):
            body += f"slot work{i}(int value, QString text) {{ if (value > {i} && this.a < value * 2) {{ "
            body += f"set this.a = value + {i} * this.b; call this.work{(i + 1) % 60}(value - 1, text); }} "
            body += f'else {{ emit told(text + "{at}"); set this.text = text; }} }} // the slot {i} of class {at}\n'
        classes.append(f"class C{at} {{ {body} }}")
    return joined("\n".join(classes), ["new a C0", 'call a.work0(5, "done")'])


def large_script(pairs):
    """So many times two events of 56 and 9 bytes, of which the first is refused."""
    program = "class A { signal s(int, QString); slot f(int v) { } } wire A s(int, QString) -> A f(int) direct;"
    pair = "connect a s(int, const QString &) b f(int) direct unique\nunblock a"
    return joined(program, ["new a A", "new b A", "connect a s(int, QString) b f(int) direct"] + [pair] * pairs)


def classes(count, is_chain, part):
    """So many classes with 64 methods and 32 properties each, or a part of these: a slot writes a property, whose signal
    tells so. In a chain each class has the one before as its base."""
    lines = []
    for number in range(count):
        base = f" : C{number - 1}" if is_chain and number else ""
        lines.append(f"class C{number}{base} {{")
        for at in (place(number, is_chain, i) for i in range(32 // part)):
            lines.append(f"property int p{at} notify s{at}(int); signal s{at}(int); slot f{at}(int v) {{ set this.p{at} = v; }}")
        lines.append("}")
    return "\n".join(lines) + "\n"


def place(number, is_chain, at):
    """How the members of a class at this place are called: classes below one another need names of their own."""
    return f"{number}_{at}" if is_chain else f"{at}"


def joined_classes(count, is_chain, part):
    """The same classes with 1,000 wires, `owns` and bindings besides, or a part of these. What they lead to has a later place
    in its class, so there is no cycle."""
    drawn = random.Random(0)

    def ends():
        (a, b), (x, y) = (drawn.choices(range(count), k=2), sorted(drawn.sample(range(32 // part), 2)))
        return a, place(a, is_chain, x), b, place(b, is_chain, y)

    lines = []
    for i in range(1000 // part):
        lines.append("wire C{} s{}(int) -> C{} f{}(int) direct;".format(*ends()))
        lines.append("owns C{} C{};".format(*ends()[::2]))
        a, read, b, bound = ends()
        lines.append(f"binding b{i} C{b}.p{bound} (C{a} a) = a.p{read} + 1;")
    return classes(count, is_chain, part) + "\n".join(lines) + "\n"


# The largest program that `--wide` takes, as a tool writes one: so many classes, of which eight stand below one another, wires
# and statements. A class has eight slots of its own, and inherits those of the classes above.
WIDE_CLASSES, WIDE_WIRES, WIDE_STATEMENTS, CHAINED = 8192, 16384, 200000, 8


def largest(part):
    """The largest wide program, or a part of it: a slot writes a property, whose signal tells so, and calls the next slot. What
    wires lead to has a later place in its class, so there is no cycle."""
    drawn = random.Random(0)
    count, lines = WIDE_CLASSES // part, []
    more = WIDE_STATEMENTS // part - 3 * CHAINED * count
    for number in range(count):
        base = f" : C{number - 1}" if number % CHAINED else ""
        lines.append(f"class C{number}{base} {{")
        for at in range(CHAINED):
            here, after = f"{number}_{at}", f"{number}_{at + 1}"
            last = f"emit s{here}(v); later this;" if at + 1 == CHAINED else f"if (v > {at}) {{ call this.f{after}(v - 1); }}"
            again = f" set this.p{here} = v + 1;" if at + 1 == CHAINED and number < more else ""
            lines.append(f"property int p{here} notify s{here}(int); signal s{here}(int); slot f{here}(int v) {{ set this.p{here} = v; {last}{again} }}")
        lines.append("}")
    for _ in range(WIDE_WIRES // part):
        (a, b), (x, y) = (drawn.choices(range(count), k=2), sorted(drawn.sample(range(CHAINED), 2)))
        lines.append(f"wire C{a} s{a}_{x}(int) -> C{b} f{b}_{y}(int) direct;")
    return "\n".join(lines) + "\n"


# Each row's input, or a part of it: 2 stands for half the size.
ROWS = {
    "followed": lambda part: joined(FOLLOWED, followers(1000 // part) + [f"set x.x {i + 1}" for i in range(1000)]),
    "unrelated": lambda part: joined(FOLLOWED, followers(1000) + [f"set q.q {i + 1}" for i in range(20000 // part)]),
    "unrelated-none": lambda part: joined(FOLLOWED, followers(0) + [f"set q.q {i + 1}" for i in range(20000 // part)]),
    "unrelated-bindings": lambda part: unrelated(1000, 20000 // part),
    "chain": lambda part: chain(60, 20000 // part),
    "children-moved-last": lambda part: moved_last(24000 // part),
    "children-deleted-last": lambda part: deleted_last(15000 // part),
    "tree-deep": lambda part: deep(20000 // part),
    "tree-wide": lambda part: wide(40000 // part),
    "created-and-deleted": lambda part: joined("class A { }", [f"new {name(i)} A\ndelete {name(i)}" for i in range(45000 // part)]),
    "created": lambda part: joined("class A { }", [f"new {name(i)} A\nblock {name(i)}" for i in range(45000 // part)]),
    "create": lambda part: joined(CREATED, [f"new {short(i)} A" for i in range(99000 // part)]),
    "later": lambda part: later(50000 // part),
    "turns": lambda part: turns(16, 140000 // part),
    "emissions": lambda part: emissions(100, 10000 // part),
    "emit-others": lambda part: emissions_beside(10000, 10000 // part),
    "posts": lambda part: posts(16, 62500 // part),
    "connect": lambda part: connects(1000, 10000 // part),
    "connect-shared": lambda part: shared(5, 2000 // part),
    "long": lambda part: long(20000 // part),
    "body": lambda part: bodies(5000 // part),
    "calls": lambda part: calls(60, 20000 // part),
    "moved-tree": lambda part: moved_tree(20000 // part, 2000),
    "moved-beside-items": lambda part: moved_beside_items(20000 // part, 2000),
    "moved-bound": lambda part: moved_bound(4000 // part, 20),
    "dead-bound": lambda part: dead_bound(4000 // part),
    "written-bound": lambda part: written_bound(4000 // part),
    "bound-again": lambda part: bound_again(4000 // part),
    "bound-shared": lambda part: joined(FOLLOWED, followers(8000 // part)),
    "posted-last": lambda part: posted_last(80000 // part),
    "parse-program": lambda part: large_program(3600 // part),
    "parse-script": lambda part: large_script(15500 // part),
    "group": lambda part: group(26000 // part),
    "meta-big": lambda part: classes(64, True, part),
    "certify-big": lambda part: joined_classes(64, True, part),
    "check-big": lambda part: joined_classes(64, True, part),
    "certify-flat": lambda part: joined_classes(256, False, part),
    "check-flat": lambda part: joined_classes(256, False, part),
    "certify-wide-quarter": lambda part: largest(4 * part),
    "certify-wide-half": lambda part: largest(2 * part),
    "certify-wide": largest,
    "check-wide-quarter": lambda part: largest(4 * part),
    "check-wide-half": lambda part: largest(2 * part),
    "check-wide": largest,
}
# The words of those rows that aren't runs.
WORDS = {
    "meta-big": ["meta"],
    "certify-big": ["certify"],
    "check-big": ["check"],
    "certify-flat": ["certify"],
    "check-flat": ["check"],
    **{f"{word}-wide{part}": ["--wide", word] for word in ("certify", "check") for part in ("", "-half", "-quarter")},
}


def words(row):
    return WORDS.get(row, RUN)


def write_input(row, part, program, path):
    """Writes a row's input, or a part of it. Where a program is checked, its certificate is what `certify` gives."""
    with open(path, "w") as text:
        text.write(ROWS[row](part))
    *front, word = words(row)
    if word == "check":
        with open(path) as text:
            made = subprocess.run([program, *front, "certify"], stdin=text, capture_output=True, check=True)
        with open(path, "ab") as text:
            text.write(b"%%\n" + made.stdout)


def build():
    """Builds the program, as ./gammonfig builds it, and gives where it stands."""
    built = subprocess.run([f"{ROOT}/gammonfig", "prove"])
    found = Store().program("", "gammonfig", sources.sum_of(ROOT, "gammonfig", kit.identity()))
    if built.returncode or not found:
        sys.exit("the program can't be built")
    return found


def meter(room):
    """The program of used.c, which starts what is measured: a process that this one starts is counted as if it had held what
    this one holds. It needs a C compiler (`cc`, or what `CC` names)."""
    path = f"{room}/used"
    subprocess.run([os.environ.get("CC") or "cc", "-O1", "-o", path, f"{ROOT}/bench/used.c"], check=True)
    return path


def measured(used, program, words, path):
    """The user seconds, the system seconds and the most memory, in MB, of the program with these words on this input."""
    reader, writer = os.pipe()
    with open(path, "rb") as text, os.fdopen(reader) as told:
        line = [used, str(writer), program, *words]
        child = subprocess.Popen(line, stdin=text, stdout=subprocess.DEVNULL, stderr=subprocess.DEVNULL, pass_fds=[writer])
        os.close(writer)
        status, *numbers = told.read().split() or ["a signal"]
    if child.wait() or status != "0":
        sys.exit(f"the run of {program} on {path} ended with {status}")
    return int(numbers[0]) / 1e6, int(numbers[1]) / 1e6, int(numbers[2]) / 1024


def main():
    rows = sys.argv[1:] or list(ROWS)
    unknown = [row for row in rows if row not in ROWS]
    if unknown:
        sys.exit(f"no such row: {' '.join(unknown)}; there are {' '.join(ROWS)}")
    program = build()
    with tempfile.TemporaryDirectory() as room:
        used = meter(room)
        for row in rows:
            path = f"{room}/{row}"
            write_input(row, 1, program, path)
            found = [measured(used, program, words(row), path) for _ in range(TIMES)]
            print(f"{row:24} {min(it[0] for it in found):6.2f} s {max(it[2] for it in found):7.1f} MB", flush=True)


if __name__ == "__main__":
    main()
