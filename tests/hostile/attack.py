#!/usr/bin/env python3
"""Gives the programs that `rt ci` built what nobody would give them on purpose, with a fixed seed, in about half a minute:

- each prefix of a worked program, its certificate and its script;
- random bytes, random tokens, and worked rows with changes: what is certified is checked and run, too;
- runs of random events with many moves between event loops, whose whole trace a model gives (moves.py);
- random words;
- the worst texts of each form, of a MiB, and what nests deep, each within a bound of time;
- inputs of 64 MiB and more, and one without end;
- readers and writers that fail, at each byte of the output, and slow ones; each limit of steps.

Of each run: no crash, no hang, an answer of docs/commands.md with its status, and the same from both builds. Whether a text
is refused for its form is judged a second time, by grammar.py.

Usage: tests/hostile/attack.py [PROGRAM..]   (default: both builds of crates/gammonfig)
BOUND in the environment has the processor seconds that one of the worst texts may take (default: 10). The last line is
`N passed, M failed`."""
import os
import random
import sys

sys.dont_write_bytecode = True
sys.path.insert(0, os.path.dirname(os.path.dirname(os.path.abspath(__file__))))
import answers
import built
import case_files
import moves
import streams
import texts

SEED = 20260101
BOUND = float(os.environ.get("BOUND") or 10)
# How many inputs of each kind are tried, and so many are one piece of work for a processor.
SIZES = {"random_bytes": 1500, "random_tokens": 3000, "changed": 6000, "certified": 1500, "moves": 400, "words": 1000}
PIECE = 50
# A changed row of more bytes tells no more.
LARGEST_ROW = 20000
NAMES = ["program", "certificate", "script"]
COMMANDS = [["meta"], ["certify"], ["check"], ["run"], ["run", "--settling"], ["run", "--unchecked", "256"]]
# A run takes at most so many rules here.
STEPS = ["--steps", "3000"]
ODD_WORDS = (
    "meta certify check run --settling --unchecked --steps 0 1 007 256 257 1000000 9223372036854775807 9223372036854775808 -1 +5 1.0 "
    "Meta -- --help --steps=5 99999999999999999999999"
).split() + ["", " ", "run ", "\u00e9", "\u0661", "\udcff", "0" * 5000 + "1", "a" * 20000]


class Attack:
    """Tries pieces of work on the programs."""

    def __init__(self, programs):
        self.programs, self.bench, self.cache = programs, None, None
        name, _, text, output, _ = next(it for it in built.examples() if it[0] == "checked")
        self.worked = built.texts(text)
        self.output = output
        self.largest = [*texts.worst(*self.worked)]

    def __call__(self, piece, count):
        self.bench = self.bench or built.Bench()
        kind, number = piece
        getattr(self, kind)(number, random.Random(f"{SEED} {kind} {number}"), count)

    def rows(self):
        """The worked rows: words and an input."""
        if self.cache is None:
            certify = lambda words, text: self.bench.run(self.programs[0], words, text).output
            found = [(words, text) for _, words, text, _, _ in built.examples()]
            found += [(it.words, it.text) for it in case_files.runs(certify)]
            self.cache = [it for it in found if len(it[1]) <= LARGEST_ROW]
        return self.cache

    def try_one(self, words, text, count, bound=None, judges=True):
        """Runs each build, and gives the first one's answer."""
        found = [self.bench.run(it, words, text) for it in self.programs]
        given = f"{str(words)[:200]}, input {built.shown(text)}"
        why = answers.Wanted(words, text, judges).why_not(found[0])
        count.check(why is None, lambda: f"{given}: {why}: {found[0]}")
        count.check(not found[0].contradicts_itself(), lambda: f"{given}: standard error says another thing: {found[0]}")
        for other in found[1:]:
            count.check(other == found[0], lambda: f"{given}: {found[0]}, and another build: {other}")
        if bound:
            seconds = max(it.seconds for it in found)
            count.check(seconds <= bound, lambda: f"{given}: it takes {seconds:.1f} s")
        return found[0]

    def texts_with(self, names, name, text):
        """An input of these texts, all of them worked ones but for that of the name."""
        return case_files.joined([text if it == name else self.worked[NAMES.index(it)] for it in names])

    # ---- prefixes

    def prefixes(self, number, rng, count):
        """Prefixes of the text of this name, in each command line that takes it: of four lengths one."""
        name, part = number
        whole = self.worked[NAMES.index(name)]
        for command in COMMANDS:
            names = case_files.texts_of(command)
            for length in range(part, len(whole) + 1, 4) if name in names else ():
                self.try_one(command, self.texts_with(names, name, whole[:length]), count)

    # ---- random texts

    def random_bytes(self, number, rng, count):
        for _ in range(PIECE):
            self.try_one(rng.choice(COMMANDS), texts.random_bytes(rng), count)

    def random_tokens(self, number, rng, count):
        """Tokens in the place of one of the worked texts."""
        for _ in range(PIECE):
            command = rng.choice(COMMANDS)
            names = case_files.texts_of(command)
            self.try_one(command, self.texts_with(names, rng.choice(names), texts.random_tokens(rng)), count)

    def changed(self, number, rng, count):
        """Worked rows with changes. What is told on standard error for the asking changes nothing else."""
        rows = self.rows()
        for _ in range(PIECE):
            words, text = rng.choice(rows)
            text = texts.changed(rng, text, [rng.choice(rows)[1]])
            words = words + STEPS if words[:1] == ["run"] and "--steps" not in words else words
            answer = self.try_one(words, text, count)
            if rng.random() < 0.25:
                other = self.bench.run(self.programs[-1], words, text, {"GAMMONFIG_EXPLAIN": "1"})
                count.check(other == answer, lambda: f"{words}, input {built.shown(text)}: {answer}, and explained: {other}")

    def certified(self, number, rng, count):
        """What `certify` gives is valid, and the run with it goes as the one without, whose depth is the bound; so it is with a
        settling certificate, where the depth is the greatest."""
        rows = [text for words, text in self.rows() if words[:2] == ["run", "--unchecked"]]
        for _ in range(PIECE):
            program, script = (built.texts(rng.choice(rows)) + [b""])[:2]
            program = texts.changed(rng, program, [rng.choice(rows)])
            if b"\n%%\n" in b"\n" + program + b"\n":
                continue
            for settling in [], ["--settling"]:
                self.certified_run(settling, program, script, count)

    def certified_run(self, settling, program, script, count):
        """What is made for the program is valid, and the run with it goes as the one without."""
        made = self.try_one(["certify", *settling], program, count)
        if made.status:
            return
        both = case_files.joined([program, made.output])
        valid = self.try_one(["check", *settling], both, count)
        count.check(valid.output == b"yes\n", lambda: f"its own certificate isn't valid: {built.shown(both)}: {valid}")
        ran = self.try_one(["run", *settling] + STEPS, case_files.joined([program, made.output, script]), count)
        bound = str(answers.MOST_DEPTH) if settling else made.output.split()[3].decode()
        other = self.try_one(["run", "--unchecked", bound] + STEPS, case_files.joined([program, script]), count)
        given = f"{settling} program {built.shown(program)}, script {built.shown(script)}"
        count.check(ran == other, lambda: f"{given}: {ran}, unchecked {other}")

    # ---- moves

    def moves(self, number, rng, count):
        """The trace is the model's, without a certificate and with the one that `certify` gives."""
        certificate = self.bench.run(self.programs[0], ["certify"], moves.PROGRAM).output
        for _ in range(PIECE):
            script, trace = moves.script(rng)
            for program in self.programs:
                for words, texts in (["run", "--unchecked", "256"], []), (["run"], [certificate]):
                    text = case_files.joined([moves.PROGRAM, *texts, script])
                    found = self.bench.run(program, words, text)
                    holds = (found.status, found.output) == (0, trace)
                    count.check(holds, lambda: f"{words}, script {script}: {found}, and the model: {trace}")

    # ---- words

    def words(self, number, rng, count):
        """Of words that are no command nothing is read."""
        for _ in range(PIECE):
            words = [rng.choice(ODD_WORDS) for _ in range(rng.randrange(6))]
            if rng.random() < 0.5:
                words = ["run", "--unchecked", *words][: rng.randrange(2, 6)]
            self.try_one(words, case_files.joined([self.worked[0], self.worked[2]]), count)
            is_read = os.lseek(self.bench.files[0], 0, os.SEEK_CUR) > 0
            count.check(is_read == answers.is_command(words), lambda: f"{words}: input is read or not, as it shouldn't be")

    # ---- large and slow ones

    def worst(self, number, rng, count):
        name, words, text = self.largest[number]
        self.try_one(words, text, count, BOUND, judges=False)

    def streams(self, number, rng, count):
        for program in self.programs:
            for holds, why in streams.tries(self.bench, program, self.worked, self.output)[number]():
                count.check(holds, lambda: f"{why}, by {program}")


    def pieces(self):
        """The pieces of work, in an order in which each kind comes early."""
        found = [("worst", it) for it in range(len(self.largest))]
        found += [("prefixes", (name, part)) for name in NAMES for part in range(4)]
        for kind, size in SIZES.items():
            found += [(kind, it) for it in range(size // PIECE)]
        random.Random(SEED).shuffle(found)
        return [("streams", it) for it in range(streams.COUNT)] + found


def main():
    attack = Attack(built.builds(sys.argv[1:]))
    built.spread(attack, attack.pieces()).end()


if __name__ == "__main__":
    main()
