"""The calls of the program `memory_runs`, each of which is made by itself, with a request refused: each request that the call
makes, from the last one down to the first.

The first line of an answer is the call's word and how it was answered, what follows is what it told. Wanted is

- of a call that takes over its arguments or is given texts alone: that there was no memory, and nothing is told;
- of one to which a store or another value is lent: that there was no memory and all that was lent is as before, and then
  what the call tells with memory for all, since it is made again;
- of a machine's events: a front of the ample trace that ends with a whole rule's lines, that the machine stopped with 65,
  and that it answers 66 to one more event and leaves the trace;
- of a command: what the sweep wants of a run.

With no request refused the answer is the one that the program's stored output has."""
import re

import built
from fronts import rule_ends

PROGRAM = "memory_runs"
# The calls to which values are lent that a caller has afterwards.
LENT = set(
    b"sig_text value_copy type_of eval_sum eval_joined parse_body parse_expr build untyped scan edges make create adopt "
    b"connect add post schedule below rehome move_tree bind_sum write_sum bind write write_group native_call".split()
)
# Those that take no memory, whatever they are given; and those that do without on what they are given here: what they copy
# is shared, or has room already.
FREE = set(b"nesting unfit_wire new_tree new_connections new_bindings natives".split())
MAY_BE_FREE = set(b"value_copy eval_sum type_of adopt connect add post schedule checked unchecked nodes destroys".split())
# Those on a scan that was just made, whose rows give back the room that they don't need, and do without where that is refused;
# and the reader of a certificate, whose lines do so. For any other request that is refused they answer as the others do.
SHRUNK = set(b"scan edges nodes destroys make check read_certificate".split())
# Those that note on the way what they look up, and look at more where that is refused.
NOTING = set(b"move_tree".split())
# The scripts of its runs.
SCRIPT = b"new s Source\nnew l Label\nconnect s valueChanged(int) l show(int) auto\ncall s.setValue(7)\n"
COUNTING = b"new a Counter\nnew b Counter\nconnect\nconnect\nset a.value 5\n"
SCRIPTS = {b"apply": SCRIPT, b"run": SCRIPT, b"command": SCRIPT, b"run_settling": COUNTING, b"run_unchecked": COUNTING}
# How an answer begins where there was no memory for what the call is made on, and for telling what it answered.
UNMADE, UNTOLD = b"unmade\n", b"untold"
# Of the requests that are made before the call so many are refused, spread over them.
BEFORE = 12
# The answers that are wanted.
NO_MEMORY, AS_BEFORE = "a call: memory", "a call: memory, all as before, then its answer"
STOPPED, LINES = "a call: stopped with 65, then 66", "a call: whole lines, then `memory`"
FAULT, WITHOUT = "a call: whole rules, then `fault 65`", "a call: its answer, without that memory"
UNPREPARED, ANSWERED = "a call: no memory for what it is made on", "a call: its answer, nothing refused"


class Call:
    """A call by its word, with what the program writes of it with memory for all."""

    def __init__(self, word, block):
        self.word = word
        head, self.told = block.split(b"\n", 1)
        self.ample = block
        self.is_command = b": status " in head

    def fronts(self):
        """What may be told of a run that stops because memory ran out."""
        if self.word not in SCRIPTS:
            return set()
        return set(rule_ends(self.told.rstrip(b"\n").splitlines(keepends=True), SCRIPTS[self.word]))

    def is_untold(self, output):
        """Whether the call was made, and a request was refused that telling of it makes: it isn't told, or, where a trace is
        told, that could do without the memory."""
        return output.startswith(self.word + b": " + UNTOLD) or (self.word == b"apply" and output == self.ample)

    def kind_before(self, output):
        """Which of the answers it is that are wanted where a request was refused that is made before the call, or None: there
        is none of what the call is made on, or that could do without this memory."""
        return UNPREPARED if output == UNMADE else WITHOUT if output == self.ample else None

    def kind_of(self, output):
        """Which of the answers it is that are wanted where a request of the call was refused, or None."""
        head, _, told = output.partition(b"\n")
        if self.word in LENT:
            if self.word in NOTING and output == self.ample:
                return WITHOUT
            is_wanted = (head, told) == (self.word + b": memory, as before true, then ample", self.told)
            return AS_BEFORE if is_wanted else None
        if self.word == b"apply":
            is_wanted = head == b"apply: fault 65, then fault 66 true" and told[:-1] in self.fronts()
            return STOPPED if is_wanted else None
        if self.is_command:
            return self.kind_of_command(head, told[:-1], output)
        return NO_MEMORY if output == self.word + b": memory\n\n" else None

    def kind_of_command(self, head, told, output):
        if output == self.ample:
            return WITHOUT
        *front, last = told.splitlines(keepends=True) or [b""]
        front = b"".join(front)
        if (head, last) == (self.word + b": status 4", b"fault 65\n") and front in self.fronts():
            return FAULT
        if (head, last) == (self.word + b": status 1", b"memory\n") and self.told.startswith(front):
            return LINES
        return None


def calls():
    """The program with each of its calls, as its stored output has them."""
    crate = f"{built.ROOT}/crates/{PROGRAM}"
    stored = built.content(f"{crate}/stdout")
    parts = re.split(rb"^(?=\w+: (?:ample|status \d)$)", stored, flags=re.MULTILINE)[1:]
    for program in built.builds([], f"{crate}/out/{PROGRAM}"):
        yield from ((program, Call(part.split(b":")[0], part)) for part in parts)


class RefusedCalls:
    """Makes calls, each by a program, with each of their requests refused in turn."""

    def __init__(self, library):
        self.library, self.bench, self.program, self.call = library, None, None, None

    def __call__(self, item, count):
        self.program, self.call = item
        self.bench = self.bench or built.Bench()
        answer, requests, _ = self.refused(0)
        is_ample = (answer.output, answer.status) == (self.call.ample, 0) and requests is not None
        if not count.check(is_ample, lambda: f"{self.name()}, nothing refused: {answer}"):
            return
        count.note(ANSWERED)
        first = self.of_call(requests, count)
        made = requests + 1 - first
        is_wanted = self.call.word in MAY_BE_FREE or (made == 0) == (self.call.word in FREE)
        count.check(is_wanted, lambda: f"{self.name()}: it makes {made} requests")
        for number in sorted({1 + it * (first - 1) // BEFORE for it in range(BEFORE)}) if first > 1 else []:
            self.one(number, self.call.kind_before, count)

    def of_call(self, requests, count):
        """Refuses each request of the call, and gives the number of the first one."""
        is_told = True
        for number in range(requests, 0, -1):
            answer, _, is_shrink = self.refused(number)
            if answer.output == UNMADE:
                return number + 1
            if is_told and self.call.is_untold(answer.output):
                continue
            if is_shrink and self.call.word in SHRUNK and answer.output == self.call.ample:
                count.note(WITHOUT)
                continue
            is_told = False
            self.judge(number, answer, self.call.kind_of, count)
        return 1

    def one(self, number, kind_of, count):
        answer, _, _ = self.refused(number)
        self.judge(number, answer, kind_of, count)

    def judge(self, number, answer, kind_of, count):
        kind = kind_of(answer.output) if answer.status == 0 else None
        holds = count.check(kind, lambda: f"{self.name()}, request {number} refused: {answer}")
        count.note(kind if holds else "none that is wanted")

    def name(self):
        return f"{self.call.word.decode()} of {self.program}"

    def refused(self, number):
        """A call with this request refused, how many were made, if that is told, and whether the one that was refused would have
        made a block smaller."""
        environment = {"LD_PRELOAD": self.library, "REFUSED": str(number)}
        answer = self.bench.run(self.program, [self.call.word.decode()], b"", environment)
        told = re.fullmatch(rb"(\d+) \d+ (\d+)\n", answer.told)
        return (answer, int(told[1]), told[2] != b"0") if told else (answer, None, False)
