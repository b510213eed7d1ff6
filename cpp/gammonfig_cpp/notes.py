"""The page `app.effects.md`: what wasn't understood, by its kind and by how much it matters."""
from __future__ import annotations

from collections import Counter, defaultdict

from .linking import Linked
from .model import Place, Unknown
from .places import Places
from .writing import Written

MOST = 200
MEANING = {
    'lambda': 'A lambda that isn\'t connected is taken to be called where it stands.',
    'functor': 'A lambda or function that is handed to a function of a library is taken to be called there.',
    'function pointer': 'What a pointer to a function leads to isn\'t known where nothing that was read, or something unknown, is put into it.',
    'function object': 'What a function object calls isn\'t known where nothing that was read, or something unknown, is put into it.',
    'undecided call': 'A call of which it isn\'t known what it calls is left out.',
    'nested event loop': 'A nested event loop delivers what is posted, and what a user does, while the slot runs. That isn\'t drawn.',
    'wiring of Qt': 'Qt\'s own objects talk to each other after this call. Of that only what the table says is drawn.',
    'connection type': 'A connection type that isn\'t a constant is taken as direct.',
    'blocking connection': 'A blocking queued connection is taken as direct.',
    'connect': 'A connection that isn\'t understood is left out.',
    'setProperty': 'A property whose name isn\'t a constant: nothing is set.',
    'property by name': 'An object that sets a property by its name: that isn\'t drawn.',
    'bindable': 'A call on a bindable property that isn\'t understood.',
    'private slot': 'A private slot that a macro declares.',
    'invokeMethod': 'A call by name that isn\'t understood is left out.',
    'singleShot': 'A timer whose slot isn\'t understood is left out.',
    'qDeleteAll': 'A deletion of objects of which no class is known is left out.',
}
# What may hide a way, so that `--strict` fails on it.
HIDING = ('function pointer', 'function object', 'undecided call', 'connect', 'setProperty', 'property by name', 'bindable', 'private slot',
          'invokeMethod', 'singleShot', 'qDeleteAll')


class Notes:
    def __init__(self, linked: Linked, written: Written, errors: list[str]) -> None:
        self.linked, self.written, self.errors = linked, written, errors
        self.whole, self.program = linked.whole, linked.program
        self.places = written.places
        self.leading = self._leading()
        self.lines: list[str] = []

    def _leading(self) -> Counter[str]:
        """By the function that is shown, how many calls and connections lead to it."""
        program, counts = self.program, Counter[str]()
        for member in program.members.values():
            for step in member.steps:
                if step.member in program.members:
                    counts[program.members[step.member].shown] += 1
        for wire in program.wires:
            counts[program.members[wire.method].shown] += 1
        return counts

    def hiding(self) -> int:
        """How many of the unknowns may hide a way."""
        found = sum(1 for u in self.whole.unknown if u.kind in HIDING)
        return found + len(self.linked.dropped) + len(self.errors) + len(self.program.silent)

    def left_out(self) -> list[str]:
        """The connections that weren't understood, each with the reason."""
        return [f'{self._at(c.place)}: {why}: `{c.place.words}`' for why, c in self.linked.dropped]

    def text(self) -> str:
        self.lines = ['# What was not understood', '',
                      'The program that was written is what is judged. That it stands for the C++ holds up to what this page lists.', '']
        self._counts()
        self._list('Errors of clang', [f'`{e}`' for e in self.errors])
        self._list('Connections that are left out', self.left_out())
        self._silent()
        self._unknown()
        self._list('Plain recursion', ['Functions that call one another without a signal between aren\'t judged: each is taken to do what all '
                                       f'of them do: {", ".join(f"`{s}`" for s in r)}' for r in self.program.recursions])
        self._list('Further bases', [f'`{self.whole.name(a)}` has `{self.whole.name(b)}` as a further base, which the language has nothing for'
                                     for a, b in sorted(self.written.names.second)])
        return '\n'.join(self.lines) + '\n'

    def _at(self, place: Place) -> str:
        return f'{self.places.relative(place.file)}:{place.line}'

    def _counts(self) -> None:
        connects = self.linked.understood + len(self.linked.dropped)
        rows = [('connections', connects), ('connections understood', self.linked.understood), ('functions', len(self.whole.functions)),
                ('members of the program', len(self.program.members)), ('wires', len(self.program.wires))]
        rows += sorted((k, n) for k, n in self.program.counts.items() if n)
        rows += [('disconnections, which are not drawn', self.whole.counts['disconnects'])]
        self.lines += ['| | |', '|---|---|'] + [f'| {name} | {number:,} |' for name, number in rows] + ['']

    def _list(self, title: str, items: list[str]) -> None:
        if not items:
            return
        self.lines += [f'## {title}', ''] + [f'- {item}' for item in items[:MOST]]
        if len(items) > MOST:
            self.lines.append(f'- and {len(items) - MOST:,} more')
        self.lines.append('')

    def _silent(self) -> None:
        items = [f'`{name}`, called {number} time{"s" if number > 1 else ""}' for name, number in
                 sorted(self.program.silent.items(), key=lambda s: (-s[1], s[0]))]
        self._list('Functions of Qt and of other libraries that are taken to be silent', items)

    def _unknown(self) -> None:
        by_kind: dict[str, list[Unknown]] = defaultdict(list)
        for unknown in self.whole.unknown:
            by_kind[unknown.kind].append(unknown)
        for kind, found in sorted(by_kind.items(), key=lambda k: (k[0] not in HIDING, k[0])):
            items = []
            for u in sorted(found, key=lambda u: (-self.leading[u.function], u.place.file, u.place.line)):
                within = f' (in `{u.function}`, to which {self.leading[u.function]} calls and connections lead)' if u.function else ''
                items.append(f'{self._at(u.place)}: `{u.what}`{within}')
            self.lines += [f'## {kind[0].upper() + kind[1:]}', '', MEANING.get(kind, ''), '']
            self.lines += [f'- {item}' for item in items[:MOST]]
            if len(items) > MOST:
                self.lines.append(f'- and {len(items) - MOST:,} more')
            self.lines.append('')
