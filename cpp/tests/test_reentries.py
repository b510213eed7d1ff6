"""Slots that run an event loop may be called again by what that delivers, and not by what a user does or a model is told to do."""
import json
import re

from reading import case
from gammonfig_cpp.watching import Watching


def test_what_an_event_loop_brings_about() -> None:
    found = case('reentries')
    told = json.loads(Watching(found.linked.program, found.written.names, found.written.places).text())['findings']
    names = [match[1] for f in told if f['rule'] == 're-entry' and (match := re.match(r'`Panel\.(\w+)\(', f['message']))]
    assert sorted(names) == ['list', 'tick']


def test_what_a_thread_posts_is_delivered_in_an_event_loop() -> None:
    found = case('reentries')
    told = json.loads(Watching(found.linked.program, found.written.names, found.written.places).text())['findings']
    ways = [[step['from'] for step in f['chain']] for f in told if f['rule'] == 're-entry' and 'Report.tell' in f['message']]
    assert ways == [['Checker.failed()']]
