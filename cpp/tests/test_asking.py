"""What a text names: `SLOT` names no signal, and `SIGNAL` no slot."""
from reading import case


def test_a_slot_is_no_signal() -> None:
    wires = case('asking').wires()
    assert 'wire Asker asked(int) -> Answerer asked(int) direct;' in [w.replace(' auto;', ' direct;') for w in wires]
    assert not any('-> Asker asked' in wire for wire in wires)


def test_a_signal_may_be_of_any() -> None:
    wires = case('asking').wires()
    assert any('-> Answerer told(int)' in wire for wire in wires) and any('-> Asker told(int)' in wire for wire in wires)
