#!/usr/bin/env python3
"""Inputs that are cheap to write and were dear to answer: each ends within bounds of time and memory, with what is wanted, or is
refused with a reason. Standard library only.

tests/tools/run.py tries them. Usage: tests/tools/costs.py tries them alone, on the build by LLVM, and prints the processor seconds
that each takes. The last line is `N passed, M failed`."""
import json
import os
import resource
import sys

sys.dont_write_bytecode = True
sys.path.insert(0, os.path.dirname(os.path.dirname(os.path.abspath(__file__))))
import built

SECONDS, MEMORY = 5, 500 << 20
# The build by Rattle's own compiler does no optimisation worth the name: it gets so many times the seconds.
OWN_FACTOR = 8
# What `import` and `verdict` read at most.
MOST_BYTES = 1 << 26
QOBJECT = [{"access": "public", "name": "QObject"}]


def inherited(signals, slots, subclasses):
    """A class with so many signals and slots, and so many classes below it."""
    members = [f"signal s{it}();" for it in range(signals)] + [f"slot f{it}() {{ }}" for it in range(slots)]
    return [f"class B {{ {' '.join(members)} }}"] + [f"class C{it} : B {{ }}" for it in range(subclasses)]


def equal_wires(count, kind):
    """So many equal wires between members that 250 classes inherit."""
    return "\n".join(inherited(1, 1, 250) + [f"wire B s0() -> B f0() {kind};"] * count).encode()


def different_wires():
    """A thousand queued wires, each between other members, that 250 classes inherit."""
    pairs = [(it // 32, it % 32) for it in range(1000)]
    return "\n".join(inherited(32, 32, 250) + [f"wire B s{s}() -> B f{f}() queued;" for s, f in pairs]).encode()


def moc(classes):
    return json.dumps({"classes": classes}).encode()


def moc_class(name, base=None, **members):
    bases = [{"access": "public", "name": base}] if base else QOBJECT
    return {"className": name, "qualifiedClassName": name, "object": True, "superClasses": bases, **members}


def bases_last(count):
    """So many classes, each before its base."""
    return moc([moc_class(f"C{it}", f"C{it + 1}" if it + 1 < count else None) for it in range(count)])


def long_line(count):
    """Effects with a line of so many names."""
    slot = {"name": "f", "arguments": []}
    text = moc([moc_class("A", slots=[slot], properties=[{"name": "p", "type": "int"}])])
    return text + b"\n%%\nA.f() sets " + b",".join([b"p"] * count) + b"\n"


def wrong_names(count):
    """Effects with so many lines, each with a name that isn't there."""
    slots = [{"name": f"f{it}", "arguments": []} for it in range(60)]
    text = moc([moc_class("A", slots=slots, properties=[{"name": f"property{it}", "type": "int"} for it in range(30)])])
    return text + b"\n%%\n" + b"A.g() sets propertyX\n" * count


def own_calls(classes):
    """Classes of 60 slots that call themselves."""
    slots = " ".join(f"slot f{it}() {{ call this.f{it}(); }}" for it in range(60))
    return "\n".join(f"class C{it} {{ {slots} }}" for it in range(classes)).encode()


def many_cycles(count):
    """Such classes, and a list of so many cycles that aren't there."""
    return own_calls(200) + b"\n%%\n" + b"".join(b"A.%d -> A.%d\n" % (it, it) for it in range(count))


def one_cycle(count):
    """A list with a cycle of so many edges, the last ones first."""
    return b"class A { }\n%%\n" + b"".join(b"A.m%06d() -> A.m%06d()\n" % (it, it + 1) for it in reversed(range(count)))


def long_with_cycle():
    """A program of some 800 kB: classes of 32 references and 60 slots, and a slot that calls itself."""
    properties = " ".join(f"property C0* reference{it};" for it in range(32))
    slots = " ".join(f"slot write{it}() {{ set this.reference1 = null; }}" for it in range(60))
    classes = [f"class C{it} {{ {properties} {slots} }}" for it in range(218)]
    return "\n".join([*classes, "class Last { slot f() { call this.f(); } }"]).encode()


def many_bindings(below, formals):
    """A thousand bindings, which read 32 properties each that so many subclasses have, by so many formal sources."""
    def properties(name):
        return " ".join(f"property int {name}{it};" for it in range(32))

    lines = [f"class B {{ {properties('p')} }}"] + [f"class S{it} : B {{ }}" for it in range(below)]
    lines += [f"class T {{ {properties('q')} }}"] + [f"class U{it} : T {{ }}" for it in range(254 - below)]
    sources = ", ".join(f"B a{it}" for it in range(formals))
    for it in range(1000):
        reads = " + ".join(f"a{read % formals}.p{(read + it) % 32}" for read in range(32))
        lines.append(f"binding b{it} T.q{it % 32} ({sources}) = {reads};")
    return "\n".join(lines).encode()


def long_certificate(size):
    """A program with a certificate of so many bytes, one line again and again."""
    line = b"QObject.destroyed(QObject*) 0\n"
    return b"class A { }\n%%\ncertificate 2\nbound 2\n" + line * (size // len(line))


def largest():
    """A program of 256 classes with a certificate, as large as may be: properties that notify, slots that set them, and wires."""
    members = " ".join(f"property int p{it} notify s{it}(int); signal s{it}(int); slot f{it}(int v) {{ set this.p{it} = v; }}" for it in range(28))
    classes = [f"class C{it} {{ {members} }}" for it in range(256)]
    wires = [f"wire C{it} s{member}(int) -> C{it + 1} f{member}(int) {'queued' if it % 40 == 39 else 'direct'};" for it in range(250) for member in range(4)]
    return "\n".join(classes + wires).encode()


def joined_classes(count, is_chain):
    """So many classes of 32 properties that notify and slots that set them, each below the one before where it is a chain; and a
    thousand wires, `owns` and bindings, each to a later member than that it comes from."""
    def member(number, at):
        return f"{number}_{at}" if is_chain else str(at)

    lines = []
    for number in range(count):
        members = [f"property int p{it} notify s{it}(int); signal s{it}(int); slot f{it}(int v) {{ set this.p{it} = v; }}" for it in (member(number, at) for at in range(32))]
        lines.append(f"class C{number}{f' : C{number - 1}' if is_chain and number else ''} {{ {' '.join(members)} }}")
    for it in range(1000):
        first, second, at = it * 7 % count, it * 13 % count, it % 31
        here, there = member(first, at), member(second, at + 1)
        lines.append(f"wire C{first} s{here}(int) -> C{second} f{there}(int) direct;")
        lines.append(f"owns C{second} C{first};")
        lines.append(f"binding b{it} C{second}.p{there} (C{first} a) = a.p{here} + 1;")
    return "\n".join(lines).encode()


def refused_events(made, event, count):
    """A program with a script that makes so many objects, and then has so many times an event that is refused."""
    return b"class C { }\n%%\n" + b"".join(b"new o%d C\n" % it for it in range(made)) + event * count


# So many times as many runs as are enough on a quiet machine.
ROUNDS = 4


class Costs:
    """Tries the inputs on a program."""

    def __init__(self, bench, count, program):
        self.bench, self.count, self.program, self.measured = bench, count, program, []

    def run(self, name, words, text, program=None, environment=None):
        """What a run of this program, or of the one that is tried, comes to; whether it keeps to the bounds is counted."""
        with built.limited({resource.RLIMIT_AS: MEMORY}):
            found = self.bench.run(program or self.program, words, text, environment)
        seconds = SECONDS * (OWN_FACTOR if self.program.endswith(".by-rattle") else 1)
        within = found.status is not None and found.status >= 0 and found.seconds <= seconds
        self.measured.append((name, words, found.seconds))
        self.count.check(within and b"out of memory" not in found.errors, lambda: f"{name}: {found.seconds:.1f} s, {found}")
        return found

    def beside(self):
        """The program `gammonfig` of the same build."""
        return built.BUILDS[1 if self.program.endswith(".by-rattle") else 0]

    def certificates(self):
        for below, formals in (254, 1), (127, 1), (127, 8):
            name, text = f"1,000 bindings over {below} subclasses, by {formals}", many_bindings(below, formals)
            made = self.run(name, ["certify"], text, self.beside())
            found = self.run(name, ["check"], text + b"\n%%\n" + made.output, self.beside())
            self.count.check((made.status, found.output) == (0, b"yes\n"), lambda: f"{name}: {made}, {found}")
        found = self.run("a certificate of 60 MB", ["check"], long_certificate(60_000_000), self.beside())
        self.count.check((found.status, found.output) == (3, b"no 72\n"), lambda: f"a long certificate: {found}")

    def graphs(self):
        for name, text, edges in (
            ("1,000 equal wires", equal_wires(1000, "queued"), ["queued wire 1 and 999 more"]),
            ("two equal wires", equal_wires(2, "queued"), ["queued wire 1 and 1 more"]),
            ("1,000 wires", different_wires(), [f"queued wire {it + 1}" for it in range(1000)]),
        ):
            found = self.run(name, ["graph", "--json"], text)
            drawn = [it["by"] for it in json.loads(found.output)["edges"] if it.get("queued")] if found.status == 0 else None
            self.count.check(drawn == edges, lambda: f"{name}: {found}")
            self.run(name, ["graph"], text)
        part = self.run("a class below", ["graph", "--json", "--from", "C7.s0"], equal_wires(2, "queued"))
        told = json.loads(part.output) if part.status == 0 else {"nodes": []}
        classes = {it["class"] for it in told["nodes"] if it["member"] == "f0()"}
        self.count.check(len(classes) == 251, lambda: f"what a class below may lead to: {part}")

    def imports(self):
        found = self.run("4,000 classes, bases last", ["import"], bases_last(4000))
        self.count.check(found.output.startswith(b"class C3999 {\n"), lambda: f"4,000 classes: {found}")
        found = self.run("9,000 classes", ["import"], bases_last(9000))
        self.refused("9,000 classes", found, b"the texts have more than 8192 classes")
        found = self.run("500,000 names", ["import", "--effects"], long_line(500_000))
        self.refused("500,000 names", found, b"line 1 of the effects: a line names at most 4096 things")
        found = self.run("4,000 names", ["import", "--effects"], long_line(4000))
        self.count.check(found.status == 0 and found.output.count(b"set this.p = 0;") == 4000, lambda: f"4,000 names: {found}")
        found = self.run("10,000 mistakes", ["import", "--effects"], wrong_names(10_000))
        self.refused("10,000 mistakes", found, b"line 100 of the effects: ")
        self.count.check(b"line 101 " not in found.errors, lambda: f"10,000 mistakes: {found}")
        for words in (["import"], ["import", "--strict"]):
            text = moc([moc_class("A")])
            found = self.bench.run(self.program, words, text + b" " * (MOST_BYTES - len(text)))
            self.count.check(found.status == 0, lambda: f"an input of 64 MiB: {found}")
            found = self.bench.run(self.program, words, text + b" " * (MOST_BYTES + 1 - len(text)))
            self.refused("an input of more than 64 MiB", found, b"the input has more than 67108864 bytes")

    def witnesses(self):
        text = long_with_cycle()
        found = self.run(f"a witness of {len(text)} bytes", ["witness"], text)
        ended = self.bench.run(built.BUILDS[0], ["run", "--unchecked", "256"], text + b"\n%%\n" + found.output)
        holds = found.status == 0 and len(found.output) < 4000 and ended.output.endswith(b"fault 61\n")
        self.count.check(holds, lambda: f"a witness of {len(text)} bytes: {found}, whose run is {ended}")

    def refused(self, name, found, why):
        self.count.check(found.status == 2 and not found.output and why in found.errors, lambda: f"{name}: {found}")

    def verdicts(self):
        found = self.run("150,000 cycles that aren't there", ["verdict", "--accept"], many_cycles(150_000))
        self.count.check(found.output.endswith(b"100 findings, and 11900 more\n"), lambda: f"a long list: {found}")
        self.count.check(b"note: 149900 more listed edges" in found.errors, lambda: f"a long list: {found}")
        text = own_calls(200)
        listed = self.run("the list of 12,000 cycles", ["verdict", "--accept-all"], text).output
        found = self.run("12,000 cycles that are there", ["verdict", "--accept"], text + b"\n%%\n" + listed)
        self.count.check(found.output == b"no findings, 12000 accepted\n", lambda: f"12,000 cycles: {found}")
        found = self.run("a cycle of 140,000 members", ["verdict", "--accept"], one_cycle(140_000))
        self.count.check(found.output == b"no findings\n", lambda: f"a long cycle: {found}")
        self.largest_program()

    def largest_program(self):
        """A graph of 256 classes is judged in at most twice what `certify` takes."""
        self.beside_certify("256 classes", self.program, ["verdict"], largest())

    def refusals(self):
        """All refused events are told, where that is asked for."""
        for event, number in ((b"delete p\n", b"31"), (b"set o29999.p 1\n", b"46")):
            text = refused_events(30_000, event, 15_000)
            name = f"15,000 events refused {number.decode()}"
            found = self.run(name, ["run", "--unchecked", "1"], text, self.beside(), {"GAMMONFIG_EXPLAIN": "1"})
            told = found.errors.count(b": warning: event "), found.errors.count(b" refused " + number + b": ")
            self.count.check(found.status == 0 and told == (15_000, 15_000), lambda: f"{name}: {found}")

    def settling(self):
        """A program that has a certificate without steps gets a settling one in at most twice what `certify` takes."""
        for name, count, is_chain in ("64 classes below one another", 64, True), ("256 classes, apart", 256, False):
            self.beside_certify(name, self.beside(), ["certify", "--settling"], joined_classes(count, is_chain))

    def beside_certify(self, name, program, words, text):
        """Tries that the program with these words does what it is asked, in at most twice what `certify` takes: each by the least of
        several runs, since other work on the machine makes some of them longer, and of more where these are too long."""
        certified, found, least, taken = [], [], 0.0, 0.0
        for _ in range(ROUNDS):
            certified += [self.bench.run(self.beside(), ["certify"], text) for _ in range(7)]
            found += [self.bench.run(program, words, text) for _ in range(7)]
            least, taken = (min(it.seconds for it in runs) for runs in (certified, found))
            if taken <= 2 * least:
                break
        self.measured.append((f"{name}, beside `certify`", words, taken))
        self.measured.append((name, ["certify"], least))
        holds = all(it.status == 0 for it in certified + found) and taken <= 2 * least
        self.count.check(holds, lambda: f"{name}: {taken:.2f} s, and certify {least:.2f} s: {found[0].output[-300:]}")


def try_all(bench, count, program):
    costs = Costs(bench, count, program)
    costs.certificates()
    costs.graphs()
    costs.imports()
    costs.verdicts()
    costs.refusals()
    costs.settling()
    costs.witnesses()
    return costs.measured


def main():
    program, count = f"{built.ROOT}/crates/qt_tools/out/qt_tools", built.Count()
    if not os.path.isfile(program):
        sys.exit(f"{program} isn't there: run `rt ci` first")
    for name, words, seconds in try_all(built.Bench(), count, program):
        print(f"{seconds:6.2f} s  {words[0]}: {name}")
    count.end()


if __name__ == "__main__":
    main()
