"""Where the lines of a rule end in a trace."""
import re

# What an event of the script writes in its own rule, behind its own line.
PUSHES = {b"emit": rb"1 emit ", b"call": rb"1 call ", b"set": rb"1 set ", b"bind": rb"1 bind ", b"later": rb"0 post "}


def rule_ends(trace, script):
    """What a run has written at the end of each rule, from its trace's lines. A rule's lines are appended together: an event
    with what it begins, a write or a bind with what follows it, a death with the emission of `destroyed`, a group with its sets
    and what follows them. Where a group has several sets the trace alone can't tell which of the lines `set` is its last one, so
    each may be."""
    verbs = event_verbs(script)
    written, push, last = b"", None, b""
    for line in trace:
        goes_on = re.match(rb"\d+ follow ", line) or (push and re.match(push, line)) or (
            re.match(rb"\d+ dead ", last) and re.match(rb"\d+ emit \w+\.destroyed\(null\)", line)
        ) or re.fullmatch(rb"\d+ group\n", last)
        if not goes_on:
            yield written
        event = re.fullmatch(rb"event (\d+)\n", line)
        push = PUSHES.get(verbs[int(event[1]) - 1]) if event else None
        written, last = written + line, line
    yield written


def event_verbs(script):
    """The first word of each event of a script."""
    lines = (line.split(b"//")[0].split() for line in script.split(b"\n"))
    return [words[0] for words in lines if words]
