"""A circle through the event loop on which an object dies is told where others die after it, and not where it ends with that object."""
import json

from reading import case
from gammonfig_cpp.watching import Watching


def test_circles_that_end_with_an_object_that_dies() -> None:
    found = case('lasting')
    told = json.loads(Watching(found.linked.program, found.written.names, found.written.places).text())
    circles = [{step['from'].partition('.')[0] for step in f['chain']} for f in told['findings']]
    assert 'wire Guest gone() -> Host forget() auto;' in found.wires() and found.body('drop') == ['emit posted_33();']
    assert not any('Host' in names for names in circles), 'who is gone has died, and the timer of one that dies is gone with it'
    assert [sum(name in names for names in circles) for name in ('Chain', 'Purse', 'Tree', 'Table')] == [1, 1, 1, 1]
    assert any('Host.drop(QString)' in names for names in told['ending'])
