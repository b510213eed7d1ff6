"""Slots that run an event loop, in which what that delivers may call them again."""
from __future__ import annotations

import re

from .graph import Graph, Node, path
from .model import Place
from .program import Program

# Signals for which an object waits for an answer: it doesn't emit them again meanwhile. All replies of a manager come by one thread,
# which waits too.
ANSWERED = {('QSslSocket', 'sslErrors'), ('QSslSocket', 'preSharedKeyAuthenticationRequired'), ('QSslSocket', 'handshakeInterruptedOnError'),
            ('QAbstractSocket', 'proxyAuthenticationRequired'), ('QNetworkReply', 'sslErrors'),
            ('QNetworkReply', 'preSharedKeyAuthenticationRequired'), ('QNetworkAccessManager', 'sslErrors'),
            ('QNetworkAccessManager', 'preSharedKeyAuthenticationRequired'), ('QNetworkAccessManager', 'authenticationRequired'),
            ('QNetworkAccessManager', 'proxyAuthenticationRequired')}
# What a user does is kept from a window while a modal dialog is open, so it is no way back into a slot that opens one. A group tells what
# its buttons or actions do, a selection what is done in its view, or to its model, and a completer what is picked from its list.
BY_HAND = ('QWidget', 'QAction', 'QShortcut', 'QGuiApplication', 'QGraphicsItem', 'QSystemTrayIcon', 'QButtonGroup', 'QActionGroup',
           'QItemSelectionModel', 'QCompleter')
# So are signals of other libraries that hand on what the user did.
INPUT = re.compile(r'\bQ(Mouse|Wheel|Key|Tablet|Touch|Hover|ContextMenu)Event\b')

# What models tell is told by who changes them, but for a model that looks at a disk.
OF_MODELS, LOOKING = 'QAbstractItemModel', 'QFileSystemModel'


class ReEntries:
    def __init__(self, program: Program, graph: Graph) -> None:
        self.program, self.graph = program, graph

    def ways(self) -> list[tuple[list[Node], Place]]:
        """A way back to each such slot, and where it runs an event loop."""
        starts, threads = self._by_the_loop()
        posted = self._posted_by(threads)
        before = self.graph.ways([*starts, *posted])
        circle_of = {node: circle for circle in self.graph.components() for node in circle}
        found = []
        for node in self.graph.outs:
            place = self.program.modal.get(node[1])
            if place is None or node[0] != self.program.members[node[1]].owner:
                continue
            way = path(before, node) if node in before else self._back(node, circle_of[node]) if node in circle_of else None
            if way is not None:
                found.append(([posted[way[0]], *way] if way[0] in posted and way[0] not in starts else way, place))
        return found

    def _posted_by(self, threads: list[Node]) -> dict[Node, Node]:
        """What runs of threads post, with what posts it: the event loop of another thread delivers it."""
        outs, reached = self.graph.outs, sorted(self.graph.ways(threads).keys() - threads)
        return {two: one for one in reached for why, to in outs[one] if why.queued for two in sorted(to.nodes)}

    def _back(self, node: Node, circle: set[Node]) -> list[Node] | None:
        """A way from a slot back to it by what is posted."""
        edges = self.graph.edges
        for first in edges[node]:
            way = self.graph.way([first], node, circle) if first in circle else None
            if way is not None and any(edges[a][b].queued for a, b in zip(way, way[1:])):
                return way
        return None

    def _by_the_loop(self) -> tuple[list[Node], list[Node]]:
        """Signals that an event loop brings about: of Qt's classes, that no statement emits, and no user by hand; and what Qt posts. Apart
        from these the runs of threads, which no event loop begins."""
        whole, objects, emitted = self.program.whole, self.program.objects, self.program.emitted()
        starts, threads = [], []
        for node in self.graph.outs:
            key = node[1]
            by_qt = key[0] == 'posted' and self.program.members[key].library
            if self.program.members[key].kind != 'signal' or (key in emitted and not by_qt):
                continue
            cls = whole.class_of(key[1]) if key[0] == 'signal' else ''
            by_hand = cls and (any(whole.is_named(cls, name) for name in BY_HAND) or bool(INPUT.search(whole.methods[key[1]][1].shown)))
            of_model = whole.name(cls) == OF_MODELS and not whole.is_named(objects.cls(node[0]), LOOKING)
            name = self.program.members[key].name.removeprefix('posted_')
            is_answered = (whole.name(cls or objects.cls(node[0])), name) in ANSWERED
            of_qt = cls and not whole.is_inside(cls) and not by_hand and not of_model and objects.cls(node[0]) in whole.classes
            # A thread is started by no event loop, and not again while it runs.
            if by_qt and name == 'run':
                threads.append(node)
            elif not is_answered and (by_qt or of_qt):
                starts.append(node)
        return starts, threads
