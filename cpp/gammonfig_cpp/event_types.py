"""Which function handles an event of which type, by `QWidget::event` and `QObject::event`, and what a condition on a type lets run."""
from __future__ import annotations

import re

from .model import Condition

# By the function that handles events the types of these, and of what Qt sends together with them.
HANDLED = {
    'actionEvent': 'ActionAdded ActionChanged ActionRemoved',
    'changeEvent': 'ActivationChange EnabledChange FontChange StyleChange PaletteChange WindowTitleChange IconTextChange ModifiedChange '
                   'MouseTrackingChange TabletTrackingChange ParentChange LocaleChange MacSizeChange ContentsRectChange ThemeChange ReadOnlyChange '
                   'ToolBarChange WindowStateChange LanguageChange LayoutDirectionChange ApplicationLayoutDirectionChange ToolTipChange '
                   'WindowIconChange ParentAboutToChange WindowActivate WindowDeactivate',
    'childEvent': 'ChildAdded ChildPolished ChildRemoved', 'closeEvent': 'Close', 'contextMenuEvent': 'ContextMenu', 'customEvent': 'User',
    'dragEnterEvent': 'DragEnter', 'dragLeaveEvent': 'DragLeave', 'dragMoveEvent': 'DragMove', 'dropEvent': 'Drop', 'enterEvent': 'Enter',
    'focusInEvent': 'FocusIn', 'focusOutEvent': 'FocusOut', 'hideEvent': 'Hide HideToParent', 'inputMethodEvent': 'InputMethod',
    'keyPressEvent': 'KeyPress', 'keyReleaseEvent': 'KeyRelease', 'leaveEvent': 'Leave', 'mouseDoubleClickEvent': 'MouseButtonDblClick',
    'mouseMoveEvent': 'MouseMove', 'mousePressEvent': 'MouseButtonPress', 'mouseReleaseEvent': 'MouseButtonRelease', 'moveEvent': 'Move',
    'paintEvent': 'Paint', 'resizeEvent': 'Resize', 'showEvent': 'Show ShowToParent Polish', 'tabletEvent': 'TabletMove TabletPress TabletRelease',
    'timerEvent': 'Timer', 'wheelEvent': 'Wheel'}
TYPES = {handler: frozenset(words.split()) for handler, words in HANDLED.items()}
# The functions that handle the events of a class of Qt.
OF_CLASSES = {'QKeyEvent': ('keyPressEvent', 'keyReleaseEvent'), 'QFocusEvent': ('focusInEvent', 'focusOutEvent'),
              'QMouseEvent': ('mousePressEvent', 'mouseReleaseEvent', 'mouseMoveEvent', 'mouseDoubleClickEvent'),
              **{f'Q{handler[0].upper()}{handler[1:]}': (handler,) for handler in HANDLED}}
# The type of the event that a function has: of what a parameter or a local variable names.
ASKED = r'\(?(?:(?!m_)\w+(?:->|\.))?type(?:\(\))?\)?'
COMPARED = re.compile(ASKED + r' ?(==|!=) ?QEvent::(?:Type::)?(\w+)')
LABEL = re.compile(r'QEvent::(?:Type::)?(\w+)')


def handlers_of(name: str) -> tuple[str, ...]:
    """The functions that handle events of a class or a type; none where it may be any. The application's own classes are of its own types."""
    if name.startswith('QEvent::'):
        return tuple(handler for handler, types in TYPES.items() if name[8:] in types)
    return OF_CLASSES.get(name, () if name.startswith('Q') else ('customEvent',))


def may_run(conditions: tuple[Condition, ...], handler: str) -> bool:
    """Whether what stands under conditions may run for an event that a function handles."""
    return not any(_excludes(condition, handler) for condition in conditions)


def _excludes(condition: Condition, handler: str) -> bool:
    if condition.how == 'case' and re.fullmatch(ASKED, condition.of):
        labels = [LABEL.fullmatch(label) for label in condition.words.split(', ')]
        return all(label is not None and label[1] not in TYPES[handler] for label in labels)
    return condition.how in ('if', 'unless') and _holds(condition.words, handler) is (condition.how == 'unless')


def _holds(words: str, handler: str) -> bool | None:
    """Whether an expression is true for the events of a handler; None where it may be either."""
    words = _bare(words)
    if '?' in words or '"' in words or words.endswith(' ..'):
        return None
    for mark, decides in (('||', True), ('&&', False)):
        parts = _parts(words, mark)
        if len(parts) > 1:
            found = {_holds(part, handler) for part in parts}
            return decides if decides in found else None if None in found else not decides
    if words.startswith('!') and _bare(words[1:]) != words[1:].strip():
        inner = _holds(words[1:], handler)
        return None if inner is None else not inner
    compared = COMPARED.fullmatch(words)
    if compared is None:
        return None
    is_one = compared[2] in TYPES[handler]
    return None if is_one and len(TYPES[handler]) > 1 else is_one is (compared[1] == '==')


def _bare(words: str) -> str:
    """Words without brackets around all of them."""
    words = words.strip()
    while words.startswith('(') and words.endswith(')') and _closes(words) == len(words) - 1:
        words = words[1:-1].strip()
    return words


def _closes(words: str) -> int:
    """Where the first bracket is closed."""
    depth = 0
    for at, letter in enumerate(words):
        depth += (letter == '(') - (letter == ')')
        if depth == 0:
            return at
    return -1


def _parts(words: str, mark: str) -> list[str]:
    """The words between marks that stand in no brackets."""
    parts, depth, begin = list[str](), 0, 0
    for at, letter in enumerate(words):
        depth += (letter == '(') - (letter == ')')
        if depth == 0 and words.startswith(mark, at):
            parts.append(words[begin:at])
            begin = at + len(mark)
    return [*parts, words[begin:]]
