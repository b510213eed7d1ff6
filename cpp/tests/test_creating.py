"""Objects whose constructors a library's function runs, what lists of members and defaults do, and containers that hold objects themselves."""
from reading import case


def test_constructors_that_a_library_runs() -> None:
    found = case('creating')
    for slot, role in (('unique_', 'm_unique'), ('shared', 'm_shared'), ('ofQt', 'm_ofQt'), ('perhaps', 'm_perhaps')):
        assert found.body(slot) == [f'delete this.to_Ringer_{role};', f'call this.to_Ringer_{role}.Ringer_made_2("");'], slot
    assert found.body('inList') == ['call this.to_Ringer_m_list.Ringer_made_2("");']
    assert found.body('inMap') == ['call this.to_Ringer_m_map.Ringer_made_2("");'], 'the key is no argument'
    assert found.body('ofValues') == ['call this.to_Rope.Rope_made("");']


def test_the_constructor_is_that_of_the_arguments() -> None:
    found = case('creating')
    assert found.body('plain')[-1] == 'call this.to_Ringer_m_unique.Ringer_made();'
    assert found.body('two')[-1] == 'call this.to_Ringer_m_unique.Ringer_made_3(1, 2);'
    assert found.body('Ringer_made') == ['call this.tire();']


def test_calls_beside_the_text() -> None:
    found = case('creating')
    assert 'call this.to_Bell.loud();' in found.body('byDefault'), 'what a default argument calls'
    assert found.body('parts') == ['call this.to_Bell.both();'], 'what is taken apart'
    assert found.body('captured') == ['call this.to_Bell.loud();'], 'what a capture begins with'


def test_lists_of_members() -> None:
    found = case('creating')
    assert found.body('guards') == ['call this.to_Guard_guard.Guard_gone();'], 'a local made by a list ends'
    assert found.body('guardsInside') == ['call this.to_Guarded.Guarded_parts_gone();'], 'so does what it has in it'
    assert found.body('Guard_gone') == ['call this.to_Bell.ring();'], 'a member holds what the list gives it'
    assert found.body('runs') == ['call this.lambda_51();', 'call this.lambda_64();'], 'also a function'
    assert found.linked.whole.unknown == []


def test_containers_of_objects_themselves() -> None:
    found = case('kept')
    assert 'wire Coin_m_perhaps tossed() -> Bank endPerhaps() auto;' in found.wires()
    for slot in ('endPerhaps', 'emptyPerhaps', 'renewPerhaps'):
        assert found.body(slot) == ['delete this.to_Coin_m_perhaps;'], slot
    assert found.body('endFirst') == ['delete this.to_Coin_m_list;']
    assert found.body('endPurses') == ['delete this.to_Purse;'] and 'owns Purse Coin;' in found.text


def test_containers_of_owners_that_are_emptied() -> None:
    found = case('kept')
    for slot in ('assign', 'swapAway', 'moveAway', 'fills'):
        assert found.body(slot) == ['delete this.to_Coin;'], slot
    assert found.body('eraseSome')[:1] == ['delete this.to_Coin_m_shared;']
    assert found.body('change')[:2] == ['delete this.to_Bank_m_either;', 'delete this.to_Coin_m_either;'], 'whichever it holds'
    assert found.body('Bank_made', 'Bank') == [], 'a constructor fills an empty one'


def test_what_ends_no_container() -> None:
    found = case('kept')
    assert found.body('looks') == ['call this.to_Coin.toss();'], 'names for it'
    assert 'slot gives()' not in found.text, 'what is returned is given away'


def test_variables_that_change_places() -> None:
    assert case('kept').body('swapped') == ['call this.to_Coin_m_two.toss();']


def test_member_functions_that_a_library_calls() -> None:
    found = case('kept')
    assert found.body('invokes') == ['call this.to_Coin_m_two.toss();']
    assert found.body('each') == ['call this.to_Coin.toss();']
    assert 'slot bound()' not in found.text, 'what is bound is called by nobody'


def test_a_static_variable_holds_what_was_made_before() -> None:
    assert case('kept').body('restart') == ['delete this.to_Coin_coin;']
