"""Lambdas and function objects that templates hand on."""
from reading import case


def test_templates_connect_what_they_are_handed() -> None:
    found = case('handed')
    for line in (31, 32, 33, 37):
        assert sum(f'-> Functions lambda_{line}() auto;' in wire for wire in found.wires()) == 1, line
    assert found.linked.dropped == []


def test_a_lambda_that_calls_what_it_caught() -> None:
    found = case('handed')
    assert 'wire Bell rung() -> Functions lambda_23() auto;' in found.wires()
    assert found.body('lambda_23') == ['call this.to_Functions.lambda_34();']


def test_templates_post_what_they_are_handed() -> None:
    found = case('handed')
    assert {wire.split('-> ')[1] for wire in found.wires() if 'posted_' in wire} == {f'Functions lambda_{line}() queued;' for line in (35, 36)}
    assert found.linked.whole.unknown == []


def test_function_objects_that_are_connected() -> None:
    found = case('handed')
    assert 'wire Bell rung() -> Toll operator() auto;' in found.wires()
    assert found.body('operator') == ['call this.to_Bell.toll();']
