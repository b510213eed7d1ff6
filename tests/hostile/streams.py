"""Readers and writers that fail or are slow, inputs that are too large, and limits of steps: of the worked run."""
import os
import signal
import threading

import answers
import case_files

RUN = ["run"]
USAGE = (b"usage\n", 1)
# So many tries there are, each of which is one piece of work.
COUNT = 6
# The rules of the worked run, and how many lines of its trace are written at the end of each.
LINES = [1, 2, 3, 5, 6, 7, 8, 9, 9, 9, 9, 9]


def tries(bench, program, worked, output):
    """The tries, each a function without arguments that gives whether something holds, and what it is."""
    text = case_files.joined(worked)
    return [
        lambda: steps(bench, program, text, output),
        lambda: full_outputs(bench, program, text, output),
        lambda: failing_outputs(bench, program, text, output),
        lambda: failing_inputs(bench, program, text, output),
        lambda: slow_ends(bench, program, text, output),
        lambda: large_inputs(bench, program),
    ]


def is_answer(answer, output, status):
    return (answer.output, answer.status) == (output, status)


def steps(bench, program, text, output):
    """The run with each limit of steps that is too small, and with the one that just does."""
    lines = output.splitlines(keepends=True)
    for limit, written in enumerate(LINES, 1):
        answer = bench.run(program, [*RUN, "--steps", str(limit)], text)
        yield is_answer(answer, b"".join(lines[:written]) + b"fault 64\n", 4), f"{limit} steps: {answer}"
    answer = bench.run(program, [*RUN, "--steps", str(len(LINES) + 1)], text)
    yield is_answer(answer, output, 0), f"{len(LINES) + 1} steps: {answer}"


def full_outputs(bench, program, text, output):
    """An output that takes so many bytes and then no more: these are written, and no others."""
    for most in range(len(output) + 1):
        answer = bench.run(program, RUN, text, most_output=most)
        wanted = is_answer(answer, output[:most], 0 if most == len(output) else 1)
        yield wanted, f"an output that takes {most} bytes: {answer}"


def failing_outputs(bench, program, text, output):
    """A full device, an output that is closed, one that nobody reads, one that can't be written. What nobody reads may end
    the program by its signal, where that isn't ignored."""
    reads, writes = os.pipe()
    os.close(reads)
    only_read = os.open(os.devnull, os.O_RDONLY)
    full = os.open("/dev/full", os.O_WRONLY)
    ends = [("full", full), ("closed", None), ("that nobody reads", writes), ("that can't be written", only_read)]
    for words in (RUN, ["go"]):
        for name, file in ends:
            answer = bench.run(program, words, text, in_place_of=[(1, file)])
            yield is_answer(answer, b"", 1), f"an output {name}, {words}: {answer}"
        answer = bench.run(program, words, text, in_place_of=[(1, writes)], by_default=[signal.SIGPIPE])
        yield answer.status in (1, -signal.SIGPIPE), f"an output that nobody reads, and its signal: {answer}"
    for file in (writes, only_read, full):
        os.close(file)
    for name, file in (("full", os.open("/dev/full", os.O_WRONLY)), ("closed", None)):
        answer = bench.run(program, RUN, text, in_place_of=[(2, file)])
        yield is_answer(answer, output, 0), f"standard error {name}: {answer}"
        answer = bench.run(program, ["meta"], b"class", in_place_of=[(2, file)])
        yield is_answer(answer, b"refused 5\n", 2), f"standard error {name}: {answer}"
        os.close(file) if file is not None else None


def failing_inputs(bench, program, text, output):
    """An input that is closed, a folder, one that can't be read, one that has nothing yet and doesn't wait. Words that are
    no command don't ask for any."""
    reads, writes = os.pipe()
    os.set_blocking(reads, False)
    folder = os.open("/", os.O_RDONLY)
    only_written = os.open(os.devnull, os.O_WRONLY)
    begins = [("closed", None), ("a folder", folder), ("that can't be read", only_written), ("without bytes yet", reads)]
    for name, file in begins:
        for command in (["meta"], ["certify"], ["check"], RUN, ["run", "--unchecked", "3"]):
            answer = bench.run(program, command, b"", in_place_of=[(0, file)])
            yield is_answer(answer, b"", 1), f"an input {name}, {command}: {answer}"
        answer = bench.run(program, ["go"], b"", in_place_of=[(0, file)])
        yield is_answer(answer, *USAGE), f"an input {name}, and no command: {answer}"
    answer = bench.run(program, RUN, text, in_place_of=[(0, None), (1, None), (2, None)])
    yield answer.status == 1, f"all three closed: {answer}"
    for file in (reads, writes, folder, only_written):
        os.close(file)


def slow_ends(bench, program, text, output):
    """An input that comes in pieces, and an output that is taken in pieces."""
    for size in (1, 7, 500):
        reads, writes = os.pipe()
        giver = threading.Thread(target=give, args=(writes, text, size))
        giver.start()
        answer = bench.run(program, RUN, b"", in_place_of=[(0, reads)])
        os.close(reads)
        giver.join()
        yield is_answer(answer, output, 0), f"an input in pieces of {size} bytes: {answer}"
    # (more lines than a pipe holds)
    script = b"new s Source\n" + b"set s.value 1\n" * 20000
    large = case_files.joined([b"class Source { property int value; }", script])
    wanted = bench.run(program, ["run", "--unchecked", "256"], large)
    taken = []
    reads, writes = os.pipe()
    taker = threading.Thread(target=take, args=(reads, taken))
    taker.start()
    answer = bench.run(program, ["run", "--unchecked", "256"], large, in_place_of=[(1, writes)])
    os.close(writes)
    taker.join()
    is_all = b"".join(taken) == wanted.output and len(wanted.output) > 200000
    yield is_all and answer.status == wanted.status == 0, f"an output that is taken in pieces: {answer}"


def give(file, text, size):
    try:
        for at in range(0, len(text), size):
            os.write(file, text[at : at + size])
    except OSError:
        pass
    os.close(file)


def take(file, taken):
    while True:
        piece = os.read(file, 100)
        if not piece:
            break
        taken.append(piece)
    os.close(file)


def large_inputs(bench, program):
    """As many bytes as an input may have, one more, and more than there is memory for."""
    for command in (["meta"], ["certify"], ["check"], RUN, ["run", "--unchecked", "3"]):
        room = os.memfd_create("large")
        os.ftruncate(room, answers.LARGEST_INPUT + 1)
        answer = bench.run(program, command, b"", in_place_of=[(0, room)])
        yield is_answer(answer, *USAGE), f"64 MiB and a byte, {command}: {answer}"
        is_left = os.lseek(room, 0, os.SEEK_CUR) <= answers.LARGEST_INPUT + 1
        yield is_left, f"64 MiB and a byte, {command}: more than a byte past 64 MiB is read"
        os.ftruncate(room, answers.LARGEST_INPUT)
        os.lseek(room, 0, os.SEEK_SET)
        wanted = (b"refused 7\n", 2) if len(case_files.texts_of(command)) == 1 else USAGE
        answer = bench.run(program, command, b"", in_place_of=[(0, room)])
        yield is_answer(answer, *wanted), f"64 MiB, {command}: {answer}"
        os.close(room)
    endless = os.open("/dev/zero", os.O_RDONLY)
    answer = bench.run(program, RUN, b"", in_place_of=[(0, endless)])
    yield is_answer(answer, *USAGE), f"an input without end: {answer}"
    os.close(endless)
