"""Which answers may come for words and an input, by docs/commands.md: what is written, and the exit status."""
import os
import re
import sys

sys.path.insert(0, os.path.dirname(os.path.dirname(os.path.abspath(__file__))))
import built
import case_files
import grammar

LARGEST_INPUT = 67108864
# In larger inputs nothing is looked for that is told beside an answer.
LARGEST_TOLD = 8388608
# So many members of a chain are named, from its front and its back.
FRONT, BACK = 6, 2
NAME = rb"[A-Za-z_][A-Za-z0-9_]*"
TYPE = rb"(?:const )?" + NAME + rb"\*?"
METHOD = NAME + rb"\((?:" + TYPE + rb"(?:," + TYPE + rb")*)?\)"
VALUE = rb'(?:-?[0-9]+|"[ !#-~]*"|' + NAME + rb")"
ARGUMENTS = rb"\((?:" + VALUE + rb"(?:," + VALUE + rb")*)?\)"
MEMBER = NAME + rb"\." + NAME
NODE = rb"(?:" + NAME + rb"\.(?:" + METHOD + rb"|" + NAME + rb")|~" + NAME + rb")"
ACTION = rb"(?:set " + NAME + rb" " + VALUE + rb"|emit " + NAME + ARGUMENTS + rb")"
ENDS = NAME + rb" " + METHOD + rb" " + NAME + rb" " + METHOD


def lines(*forms):
    return re.compile(rb"(?:(?:" + rb"|".join(forms) + rb")\n)*")


CLASSES = lines(
    rb"class " + NAME + rb"(?: : " + NAME + rb")? [0-9]+ [0-9]+",
    rb"[0-9]+ (?:signal|slot|native) " + METHOD,
    rb"property " + NAME + rb" " + TYPE + rb"(?: notify " + METHOD + rb")?",
)
LINE = re.compile(rb"(" + NODE + rb") ([0-9]+)(?: ~" + NAME + rb")*")
CERTIFICATE = re.compile(rb"certificate 2\nbound [0-9]+\n(?:" + NODE + rb" [0-9]+(?: ~" + NAME + rb")*\n)+")
NODES = NODE + rb"(?: " + NODE + rb")+"
NO_CERTIFICATE = re.compile(
    rb"no (?:wire [0-9]+|type (?:" + NODE + rb"|binding " + NAME + rb")|(?:cycle|destroy|high) " + NODES + rb")\n"
)
SETTLING = re.compile(
    rb"settling 1\nbound [0-9]+ [0-9]+\n(?:" + NODE + rb" [0-9]+ [0-9]+(?: ~" + NAME + rb")*\n)+(?:round [0-9]+(?: " + NODE + rb")+\n)*"
)
NO_SETTLING = re.compile(
    rb"no (?:wire [0-9]+|type (?:" + NODE + rb"|binding " + NAME + rb")|(?:cycle|destroy) " + NODES + rb"|high(?: " + NODE + rb")?)\n"
)
BESIDE_SETTLING = re.compile(rb"(?:" + built.WARNED + rb")?(?:bound [0-9]+, step [0-9]+\n)?(?:" + built.WARNED + rb")?")
ENTRIES = lines(
    rb"event [0-9]+(?: refused (?:3[0-9]|4[0-689]))?",
    rb"[0-9]+ emit " + MEMBER + ARGUMENTS + rb"(?: blocked)?",
    rb"[0-9]+ call " + MEMBER + ARGUMENTS,
    rb"[0-9]+ native(?: " + ACTION + rb"(?:, " + ACTION + rb")*)?",
    rb"[0-9]+ post " + NAME + rb" (?:" + MEMBER + ARGUMENTS + rb"|~" + NAME + rb")",
    rb"[0-9]+ dead " + NAME,
    rb"[0-9]+ (?:set|bind|follow) " + MEMBER + rb" " + VALUE,
    rb"[0-9]+ connect " + ENDS + rb" (?:auto|direct|queued)(?: unique)?(?: single)?",
    rb"[0-9]+ disconnect " + ENDS,
    rb"[0-9]+ refused (?:38|39|40|41)",
    rb"[0-9]+ (?:null|group)",
)
REFUSED = re.compile(rb"refused (?:[2-7]|1[0-578]|77|16 line [0-9]+)\n")
LOADING = re.compile(rb"refused 1[0-5]\n")
FITTING = re.compile(rb"refused 1[78]\n")
NOT_VALID = re.compile(rb"no 7[0-6]\n")
# The faults of a run without a certificate, and of one with: memory is ample here, so it isn't among them.
FAULTS, CHECKED_FAULTS, SETTLING_FAULTS = re.compile(rb"fault 6[0-4]\n"), re.compile(rb"fault 64\n"), re.compile(rb"fault 6[14]\n")
MOST_DEPTH, MOST_STEPS = 256, 9223372036854775807


def is_number(word, most):
    return re.fullmatch("[0-9]+", word) is not None and 1 <= grammar.number_of(word.encode()) <= most


def is_command(words):
    """Whether the words are a command line."""
    if words[:1] != ["run"]:
        return words in (["meta"], ["certify"], ["check"], ["certify", "--settling"], ["check", "--settling"])
    options = words[1:]
    if options[:1] == ["--settling"]:
        options = options[1:]
    elif options[:1] == ["--unchecked"]:
        if len(options) < 2 or not is_number(options[1], MOST_DEPTH):
            return False
        options = options[2:]
    return not options or (len(options) == 2 and options[0] == "--steps" and is_number(options[1], MOST_STEPS))


class Wanted:
    """What may be answered. `why_not` says what is wrong with an answer, or None. Where `judges` is false the texts' form
    isn't judged, which takes long for large ones."""

    def __init__(self, words, text, judges=True):
        self.words, self.names, self.judges = case_files.narrow(words), case_files.texts_of(words), judges
        self.is_wide, self.is_settling = self.words != words, "--settling" in self.words
        self.parts = built.texts(text) if is_command(self.words) and len(text) <= LARGEST_INPUT else []
        self.is_usage = not self.names or len(self.parts) != len(self.names)

    def why_not(self, answer):
        return self.why_not_answered(answer) or (self.why_not_told(answer) if answer.status == 0 else None)

    def why_not_answered(self, answer):
        if answer.status is None:
            return "it hangs"
        if answer.status < 0:
            return f"signal {-answer.status} ends it"
        if self.is_usage:
            return None if (answer.output, answer.status) == (b"usage\n", 1) else "wanted is `usage`"
        if answer.status == 1:
            return "its texts are as many as wanted, nothing fails, and memory is ample"
        return self.why_not_refused(answer) if answer.status == 2 else self.why_not_taken(answer)

    def refusal(self):
        """What a text's form has refused: the program's at once, and the others' where the program loads."""
        if not self.judges:
            return None, False
        given = dict(zip(self.names, self.parts))
        number = grammar.program_refusal(given["program"], self.is_wide)
        if number:
            return b"refused %d\n" % number, True
        is_certificate = grammar.is_settling_certificate if self.is_settling else grammar.is_certificate
        if "certificate" in given and not is_certificate(given["certificate"]):
            return b"refused 77\n", False
        return (grammar.script_refusal(given["script"]) if "script" in given else None), False

    def why_not_refused(self, answer):
        refusal, is_first = self.refusal()
        loads = is_first or not LOADING.fullmatch(answer.output)
        if refusal and loads:
            return None if answer.output == refusal else f"wanted is {refusal}"
        fits = self.words[0] == "run" and b"native" in self.parts[0] and FITTING.fullmatch(answer.output)
        form = REFUSED.fullmatch(answer.output) if not self.judges else not loads or fits
        return None if form else "no text's form is refused"

    def why_not_taken(self, answer):
        refusal, _ = self.refusal()
        if refusal:
            return f"wanted is {refusal}"
        return getattr(self, f"why_not_{self.words[0]}")(answer)

    def why_not_told(self, answer):
        """Beside a yes stand warnings and, but for runs, how deep the chains go; beside another success nothing; and in front of
        that refused events."""
        errors = built.behind_refused(answer.errors) if self.words[0] == "run" else answer.errors
        if self.words == ["meta"] or "--unchecked" in self.words or sum(map(len, self.parts)) > LARGEST_TOLD:
            return "nothing was judged, and something is told" if errors else None
        if self.is_settling and self.words[0] != "run":
            return None if BESIDE_SETTLING.fullmatch(errors) else "this isn't what is told beside a yes"
        told = built.BESIDE_YES.fullmatch(errors)
        if not told or (told[1] is None) != (self.words[0] == "run"):
            return "this isn't what is told beside a yes"
        return self.why_not_deep(answer, told) if self.words == ["certify"] else None

    def why_not_deep(self, answer, told):
        """The certificate has a line for each member, and along the longest chain its ranks fall from the bound to 0."""
        _, bound, *lines = answer.output.splitlines()
        ranks = {it[1]: int(it[2]) for it in map(LINE.fullmatch, lines)}
        depth, chain = int(told[2]), told[3].split(b" -> ")
        wanted = [*range(depth - 1, -1, -1)]
        if depth > FRONT + BACK:
            wanted[FRONT:-BACK] = [None]
            ranks[b".."] = None
        holds = (int(told[1]), b"bound %d" % depth) == (len(lines), bound) and [ranks.get(it, -1) for it in chain] == wanted
        return None if holds else "the certificate has other members, or another longest chain"

    def why_not_meta(self, answer):
        return None if answer.status == 0 and CLASSES.fullmatch(answer.output) else "these are no classes"

    def why_not_certify(self, answer):
        form = ({0: SETTLING, 3: NO_SETTLING} if self.is_settling else {0: CERTIFICATE, 3: NO_CERTIFICATE}).get(answer.status)
        holds = form and form.fullmatch(answer.output)
        return None if holds else "this is no certificate, and no reason that there is none"

    def why_not_check(self, answer):
        is_valid = (answer.output, answer.status) == (b"yes\n", 0)
        holds = is_valid or (answer.status == 3 and NOT_VALID.fullmatch(answer.output))
        return None if holds else "this is neither `yes` nor `no k`"

    def why_not_run(self, answer):
        is_checked = self.words[1:2] != ["--unchecked"]
        if is_checked and answer.status == 3:
            return None if NOT_VALID.fullmatch(answer.output) else "this is no `no k`"
        trace, fault = answer.output, b""
        if answer.status == 4:
            front, _, last = trace[:-1].rpartition(b"\n")
            trace, fault = front + b"\n" if front else b"", last + b"\n"
            faults = SETTLING_FAULTS if self.is_settling else CHECKED_FAULTS if is_checked else FAULTS
            if not faults.fullmatch(fault):
                return "this is no fault of such a run"
        if answer.status not in (0, 4) or not ENTRIES.fullmatch(trace):
            return "this is no trace"
        return self.why_not_trace(trace, answer.status == 0)

    def why_not_trace(self, trace, is_whole):
        """Events are numbered, all of them where the run is whole, and activations nest step by step up to the depth."""
        events = [int(it) for it in re.findall(rb"^event ([0-9]+)", trace, re.M)]
        count = sum(bool(grammar.tokens(line)) for line in self.parts[-1].split(b"\n"))
        if events != list(range(1, len(events) + 1)) or (len(events) != count if is_whole else len(events) > count):
            return "the events aren't those of the script"
        depths = [int(it) for it in re.findall(rb"^([0-9]+) ", trace, re.M)]
        return None if max(depths, default=0) <= self.depth() else "activations nest too deep"

    def depth(self):
        """How many activations may nest: with a settling certificate its bound, and its step for each object that the script makes
        at most."""
        if self.words[1:2] == ["--unchecked"]:
            return grammar.number_of(self.words[2].encode())
        if self.is_settling:
            found = re.search(rb"^[ \t\r]*bound\s+([0-9]+)\s+([0-9]+)", self.parts[1], re.M)
            bound, step = map(grammar.number_of, found.groups()) if found else (MOST_DEPTH, 0)
            return min(MOST_DEPTH, bound + step * len(re.findall(rb"^\s*new\b", self.parts[2], re.M)))
        found = re.search(rb"^[ \t\r]*bound\s+0*([0-9]+)", self.parts[1], re.M)
        return grammar.number_of(found[1]) if found else MOST_DEPTH
