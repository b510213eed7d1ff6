"""What to do about a finding, in words of C++: the checker speaks of the program that was written."""
from __future__ import annotations

import re
from typing import Collection

ROLES = 'tell more objects apart (`--roles site`)'
# What the checker says, as its sources have it (a test compares), and what that is in C++.
PHRASES = {
    'make one of these wires `queued`': 'make one of these connections a `Qt::QueuedConnection`',
    'make a wire on the way `queued`': 'make a connection on the way a `Qt::QueuedConnection`',
    'emit a signal that a `queued` wire takes on': 'emit a signal that a queued connection takes on',
    'write `later` in the place of `delete`': 'call `deleteLater()` in the place of `delete`',
    'use a `queued` wire, or a class for each role': f'make a connection queued, or {ROLES}',
    'declare a class for each role': ROLES,
    ': `certify --settling` takes it': '',
}
# How the checker says which statement of the program hands on another value, and what that is in C++: of a value that is computed
# the program has only that it is another one.
COMPUTED = re.compile(r'hands on another value than its own(?:, by `[^`]*`)?: hand (?:`[^`]*`|that) on as it is')
OTHER_VALUE = 'hands on another value than the one that it is given'
# What the checker says of a member's parameters, which of a library's own can't be changed.
SIGNATURE = re.compile(r'(`([^`]*)` has (?:no parameter, and so carries no value|[\w ]+ parameters)): '
                       r'(?:give it the value as its one parameter|leave it the one whose value is handed on)')
# What there is nothing to do about in C++.
RESTING = 'settling-cycle'


def in_cpp(rule: str, advice: str, of_libraries: Collection[str] = ()) -> str:
    """The advice of the checker on a finding of this rule, in words of C++; which members are Qt's own, or another library's, is told."""
    if rule == RESTING:
        return ''
    for said, meant in PHRASES.items():
        advice = advice.replace(said, meant)
    advice = SIGNATURE.sub(lambda found: found[1] if found[2] in of_libraries else found[0], advice)
    return COMPUTED.sub(OTHER_VALUE, advice)
