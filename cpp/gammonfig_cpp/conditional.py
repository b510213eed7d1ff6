"""Statements that run under a condition: branches, loops, switches; and what an early return leaves to the rest of a block."""
from __future__ import annotations

from typing import TYPE_CHECKING

from .context import Context
from .libclang import Cursor, K
from .model import Condition

if TYPE_CHECKING:
    from .bodies import Bodies

# How long the words of a condition may be: those on an event's type are read.
LONGEST = 400
ENDS = (K.RETURN_STMT, K.CONTINUE_STMT, K.BREAK_STMT, K.CXX_THROW_EXPR, K.GOTO_STMT)
LABELS = (K.CASE_STMT, K.DEFAULT_STMT)


def ends(cursor: Cursor) -> bool:
    """Whether nothing after a statement runs."""
    if cursor.kind == K.COMPOUND_STMT:
        kids = list(cursor.get_children())
        return bool(kids) and ends(kids[-1])
    return bool(cursor.kind in ENDS)


def up_to_bracket(words: str) -> str:
    """The words up to the bracket that closes the first one: what macros leave of a body isn't part of a loop's head."""
    depth = 0
    for at, letter in enumerate(words):
        depth += (letter == '(') - (letter == ')')
        if letter == ')' and depth == 0:
            return words[:at + 1]
    return words


class Conditional:
    def __init__(self, context: Context, bodies: Bodies) -> None:
        self.context, self.bodies = context, bodies

    def block(self, cursor: Cursor) -> None:
        context = self.context
        depth, blocked, cut = len(context.conditions), len(context.blocked), len(context.cut)
        with self.bodies.comparing.block():
            for inner in cursor.get_children():
                self._one(inner)
        del context.conditions[depth:]
        del context.blocked[blocked:]
        del context.cut[cut:]

    def _one(self, statement: Cursor) -> None:
        """A statement of a block. What comes after `if (a) return;` runs unless a."""
        self.bodies.walk(statement)
        parts = list(statement.get_children()) if statement.kind == K.IF_STMT else []
        if len(parts) == 2 and ends(parts[1]):
            words = self.context.text(parts[0], LONGEST)
            self.context.conditions.append(Condition('unless', words, statement.location.line))
            self.bodies.comparing.guard(parts[0], '==')

    def branch(self, cursor: Cursor) -> None:
        parts = list(cursor.get_children())
        at = 0
        while at + 2 < len(parts) and parts[at].kind in (K.DECL_STMT, K.VAR_DECL):
            self.bodies.walk(parts[at])
            at += 1
        condition = parts[at]
        self.bodies.walk(condition)
        words, line = self.context.text(condition, LONGEST), cursor.location.line
        for branch, how in zip(parts[at + 1:], ('if', 'unless')):
            with self.context.under(Condition(how, words, line)), self.bodies.comparing.block():
                if how == 'if':
                    self.bodies.comparing.guard(condition, '!=')
                self.bodies.walk(branch)

    def choice(self, cursor: Cursor) -> None:
        """`a ? b : c`"""
        parts = list(cursor.get_children())
        self.bodies.walk(parts[0])
        words, line = self.context.text(parts[0], LONGEST), cursor.location.line
        for part, how in zip(parts[1:], ('if', 'unless')):
            with self.context.under(Condition(how, words, line)):
                self.bodies.walk(part)

    def loop(self, cursor: Cursor) -> None:
        """A loop: its body runs as often as its head says, which may be never."""
        parts = list(cursor.get_children())
        if not parts:
            return
        body = parts[0] if cursor.kind == K.DO_STMT else parts[-1]
        condition = Condition('in', self._head(cursor, parts, body), cursor.location.line)
        for part in parts:
            if part is body:
                with self.context.under(condition), self.bodies.comparing.block():
                    # Of a loop that is a macro, as Q_FOREACH, the branch in it is none of the application's.
                    for inner in part.get_children() if self._is_of_macro(cursor, part) else [part]:
                        self.bodies.walk(inner)
            elif part.kind.is_expression() or part.kind.is_statement() or (part.kind == K.VAR_DECL and cursor.kind != K.CXX_FOR_RANGE_STMT):
                self.bodies.walk(part)

    @staticmethod
    def _is_of_macro(loop: Cursor, body: Cursor) -> bool:
        """Whether a loop and the branch that is its body are one macro: they begin at one place."""
        start, inner = loop.extent.start, body.extent.start
        return bool(body.kind == K.IF_STMT and start.offset == inner.offset and start.file is not None and inner.file is not None
                    and start.file.name == inner.file.name)

    def _head(self, cursor: Cursor, parts: list[Cursor], body: Cursor) -> str:
        if cursor.kind == K.DO_STMT:
            return f'do .. while ({self.context.text(parts[-1])})'
        start, end = cursor.extent.start, body.extent.start
        if start.file is None or end.file is None or start.file.name != end.file.name:
            return 'a loop'
        last = cursor.extent.end if self._is_of_macro(cursor, body) else end
        words = up_to_bracket(' '.join(self.context.bytes_between(start.file.name, start.offset, last.offset).split()))
        return words if len(words) <= 100 else words[:98].rstrip() + ' ..'

    def switch(self, cursor: Cursor) -> None:
        context, parts = self.context, list(cursor.get_children())
        if len(parts) < 2 or parts[-1].kind != K.COMPOUND_STMT:
            self.bodies.inside(cursor)
            return
        for part in parts[:-1]:
            self.bodies.walk(part)
        of = context.text(next((p for p in reversed(parts[:-1]) if p.kind.is_expression()), parts[0]))
        depth, blocked, cut = len(context.conditions), len(context.blocked), len(context.cut)
        labels, has_ended = list[str](), True
        for inner in parts[-1].get_children():
            found, statement = self._labels(inner)
            if found:
                labels = found if has_ended else labels + found
                del context.conditions[depth:]
                context.conditions.append(Condition('case', ', '.join(labels), inner.location.line, of))
            if statement is not None:
                with self.bodies.comparing.block():
                    self._one(statement)
                has_ended = ends(statement)
        del context.conditions[depth:]
        del context.blocked[blocked:]
        del context.cut[cut:]

    def _labels(self, cursor: Cursor) -> tuple[list[str], Cursor | None]:
        """The labels that stand before a statement, and the statement."""
        labels: list[str] = []
        at: Cursor | None = cursor
        while at is not None and at.kind in LABELS:
            kids = list(at.get_children())
            labels.append(self.context.text(kids[0]) if at.kind == K.CASE_STMT and kids else 'default')
            at = kids[-1] if len(kids) > (at.kind == K.CASE_STMT) else None
        return labels, at
