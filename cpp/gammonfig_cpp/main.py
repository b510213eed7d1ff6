"""The command `read`: from a build's compile commands to a program, its places, and what wasn't understood."""
from __future__ import annotations

import argparse
import os
import sys
import time

from .errors import ReadError
from .explaining import Explaining
from .gather import gather
from .limits import STANDARD, WIDE
from .linking import Linked, link
from .model import Facts
from .notes import Notes
from .places import Places
from .qtmodel import Table
from .report import Teller, judge
from .slicing import keep_slice
from .splitting import split_functions
from .store import Cache
from .units import units_of
from .warned import Warnings
from .watching import Watching
from .writing import Writing, Written

HERE = os.path.dirname(os.path.abspath(__file__))
STRICT = 3
# How many connections that weren't understood are told at once.
MOST_LEFT_OUT = 20


def arguments(words: list[str]) -> argparse.Namespace:
    parser = argparse.ArgumentParser(prog='gammonfig read', description='Reads the C++ of a Qt application, and writes a program of the '
                                     'class language, its places in C++ and what was not understood. docs/cpp.md tells more.')
    parser.add_argument('out', nargs='?', metavar='OUT', help='with --verdict and without -p: a folder that was written before')
    parser.add_argument('-p', metavar='DIR', help='the build, with compile_commands.json')
    parser.add_argument('-o', metavar='OUT', help='where to write; gammonfig in the build if it is not given')
    parser.add_argument('--root', action='append', metavar='DIR', help='a folder of the application\'s sources; the current one if none is given')
    parser.add_argument('--roles', choices=('member', 'class', 'site'), default='member', help='what is told apart: the objects of each member '
                        'that holds them, of each class, or of each place where they are made')
    parser.add_argument('--table', metavar='FILE', default=os.path.join(os.path.dirname(HERE), 'qt.effects'), help='what Qt\'s functions do')
    parser.add_argument('--only', metavar='REGEX', help='only the units whose path has this')
    parser.add_argument('--lean', action='store_true', help='leave out members that lead to nothing, though something leads to them')
    parser.add_argument('--slice', action='store_true', help='only what is on a circle or on a way to a deletion')
    parser.add_argument('--keep-going', action='store_true', help='read on where clang tells errors')
    parser.add_argument('--strict', action='store_true', help='status 3 where something that may hide a way was not understood')
    parser.add_argument('--verdict', action='store_true', help='tell what is wrong, in lines of C++')
    forms = parser.add_mutually_exclusive_group()
    forms.add_argument('--json', action='store_true', help='the verdict as JSON')
    forms.add_argument('--sarif', action='store_true', help='the verdict as SARIF')
    parser.add_argument('--context', type=int, default=0, metavar='N', help='show N lines of C++ around each place')
    parser.add_argument('--explain', metavar='NODE', help='why a class or a member of the program is there')
    parser.add_argument('--jobs', type=int, default=os.cpu_count() or 1, metavar='N', help='how many units to read at once')
    parser.add_argument('--cache', metavar='DIR', help='where the facts of units are kept')
    parser.add_argument('--no-cache', action='store_true', help='read all units anew')
    parser.add_argument('--quiet', action='store_true', help='tell no progress')
    return parser.parse_args(words)


def cache_folder() -> str:
    home = os.environ.get('XDG_CACHE_HOME') or os.path.join(os.path.expanduser('~'), '.cache')
    return os.path.join(home, 'gammonfig', 'cpp')


def say(words: str) -> None:
    print(words, file=sys.stderr, flush=True)


def read_facts(options: argparse.Namespace, roots: list[str]) -> tuple[list[Facts], list[str]]:
    """The facts of all units, and the errors of clang that were passed over."""
    units = units_of(options.p, roots, options.only)
    cache = None if options.no_cache else Cache(options.cache or cache_folder())
    facts = gather(units, roots, cache, options.jobs, options.quiet)
    errors = list(dict.fromkeys(e for f in facts for e in f.errors))
    if errors and not options.keep_going:
        for error in errors[:20]:
            say(error)
        raise ReadError(f'clang tells {len(errors)} error{"s" if len(errors) > 1 else ""} in the application\'s files: '
                        'build it first, or read on with --keep-going')
    return facts, errors


def write_files(folder: str, files: dict[str, str]) -> None:
    """Writes all files, or none: each beside its place first."""
    try:
        os.makedirs(folder, exist_ok=True)
        for name, text in files.items():
            with open(os.path.join(folder, f'.{name}.new'), 'w', encoding='utf-8') as file:
                file.write(text)
        for name in files:
            os.replace(os.path.join(folder, f'.{name}.new'), os.path.join(folder, name))
    except OSError as wrong:
        raise ReadError(f'{folder}: this folder can\'t be written: {wrong.strerror}') from wrong


def write_program(facts: list[Facts], roots: list[str], options: argparse.Namespace) -> tuple[Linked, Written]:
    """The program; over the language's limits without members that lead to nothing, and over those of `--wide` then not at all."""
    table = Table.read(options.table)
    linked, written = _written(facts, table, roots, options.roles, options.lean or options.slice, options.slice)
    over = written.size.over(STANDARD)
    if over and not options.lean and not options.slice:
        say(f'the whole program is over a limit of the language ({"; ".join(over)}): members that lead to nothing are left out')
        linked.make_lean()
        written = Writing(linked.program, *roots).write()
    if split_functions(linked.program):
        written = Writing(linked.program, *roots).write()
    over, too_wide = written.size.over(STANDARD), written.size.over(WIDE)
    rest = 'what is on a circle or on a way to a deletion' if options.slice else 'the program'
    if too_wide:
        offer = '' if options.slice else ': --slice keeps what is on a circle or on a way to a deletion'
        raise ReadError(f'{rest} is over a limit of the language: {"; ".join(too_wide)}{offer}')
    if over:
        say(f'{rest} is over a limit of the language ({"; ".join(over)}): commands take it with --wide')
    return linked, written


def _written(facts: list[Facts], table: Table, roots: list[str], roles: str, lean: bool, is_slice: bool) -> tuple[Linked, Written]:
    linked = link(facts, table, roles, lean)
    if is_slice:
        keep_slice(linked.program)
    return linked, Writing(linked.program, *roots).write()


def refuse_twice(linked: Linked, written: Written, options: argparse.Namespace) -> None:
    """A class of one name in two programs of a build would be taken for one class."""
    for name, (one, other) in sorted(linked.whole.twice.items()):
        first, second = (f'{written.places.relative(p.file)}:{p.line}' for p in (one, other))
        if not options.keep_going:
            raise ReadError(f'{name} is declared in {first} and in {second}: read each program of the build alone, with --root or --only')


def say_left_out(connections: list[str], out: str) -> None:
    """Connections that weren't understood are often faults, as one to a signal that isn't there."""
    for one in connections[:MOST_LEFT_OUT]:
        say(f'left out: {one}')
    if len(connections) > MOST_LEFT_OUT:
        say(f'left out: {len(connections) - MOST_LEFT_OUT} more connections, which {os.path.join(out, "app.effects.md")} has')


def read(options: argparse.Namespace, out: str, roots: list[str]) -> int:
    """Reads and writes; the status."""
    begun = time.time()
    facts, errors = read_facts(options, roots)
    linked, written = write_program(facts, roots, options)
    refuse_twice(linked, written, options)
    if options.explain:
        print(Explaining(linked, written).text(options.explain), end='')
        return 0
    notes = Notes(linked, written, errors)
    write_files(out, {'app.gf': written.text, 'app.places': written.places.text(), 'app.effects.md': notes.text(),
                      'app.warnings.json': Watching(linked.program, written.names, written.places).text(bool(written.size.over(STANDARD)))})
    if not options.quiet:
        say_left_out(notes.left_out(), out)
        connects = linked.understood + len(linked.dropped)
        say(f'{len(facts)} units, {linked.understood} of {connects} connections understood, {notes.hiding()} unknowns, '
            f'{time.time() - begun:.0f} s: {os.path.join(out, "app.gf")}')
    return STRICT if options.strict and notes.hiding() else 0


def tell(options: argparse.Namespace, out: str, root: str) -> int:
    """Tells the verdict of what was written; its status."""
    places = Places.read(os.path.join(out, 'app.places'), root)
    warnings = Warnings.read(os.path.join(out, 'app.warnings.json'))
    verdict = judge(os.path.join(out, 'app.gf'), places, warnings.wide)
    warnings.add_to(verdict)
    teller = Teller(root, options.context, os.path.join(out, 'app.gf'))
    form = teller.json if options.json else teller.sarif if options.sarif else teller.text
    print(form(verdict), end='')
    return verdict.told_status()


def run(words: list[str]) -> int:
    options = arguments(words)
    roots = [os.path.realpath(r) for r in options.root or ['.']]
    for root in roots:
        if not os.path.isdir(root):
            raise ReadError(f'{root}: there is no such folder')
    if options.p is None and options.verdict and options.out:
        return tell(options, options.out, roots[0])
    if options.out:
        raise ReadError(f'{options.out}: a folder that was written is named with --verdict alone, and without -p')
    if options.p is None:
        raise ReadError('-p DIR names the build, with its compile_commands.json')
    build = os.path.realpath(options.p if os.path.isdir(options.p) else os.path.dirname(options.p) or '.')
    if not any(build == r or build.startswith(r + os.sep) for r in roots):
        roots.append(build)
    out = options.o or os.path.join(build, 'gammonfig')
    status = read(options, out, roots)
    if options.verdict and not options.explain:
        return tell(options, out, roots[0]) or status
    return status


def main(words: list[str]) -> int:
    try:
        return run(words)
    except ReadError as wrong:
        say(f'gammonfig read: {wrong}')
        return 2
    except BrokenPipeError:
        return 1
