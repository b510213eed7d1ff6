"""Objects behind shared and guarded pointers, and those that others tell of: a parent, a server, an event loop."""
import json
import re

from reading import case
from gammonfig_cpp.watching import Watching


def test_a_guarded_pointer_deletes_nothing_by_itself() -> None:
    found = case('shared')
    assert found.body('spendGuarded') == ['call this.to_Coin_m_guarded.spend();']
    assert found.body('endGuarded') == ['delete this.to_Coin_m_guarded;', 'call this.to_Coin_m_guarded.Coin_gone();']
    assert found.body('forgetGuarded') == ['call this.to_Coin_m_guarded.Coin_made("");']
    assert found.body('delete_Coin') == found.body('endGuarded')
    assert 'wire Purse posted_30() -> Functions delete_Coin() queued;' in found.wires()


def test_shared_pointers_lead_to_what_they_hold() -> None:
    found = case('shared')
    for slot, role in (('Shared', 'm_shared'), ('Weak', 'm_shared'), ('Copy', 'm_shared'), ('Standard', 'm_standard'), ('Watched', 'm_standard'),
                       ('Each', 'm_many')):
        assert found.body(f'spend{slot}') == [f'call this.to_Coin_{role}.spend();'], 'a copy that leaves its scope ends nothing'
    for name in ('guarded', 'shared', 'standard'):
        assert f'wire Coin_m_{name} spent() -> Purse count() auto;' in found.wires()


def test_what_a_function_is_handed_to_fill_holds_what_it_put_in() -> None:
    assert case('shared').body('spendFilled')[-1] == 'call this.to_Coin_out.spend();', 'a shared pointer by reference'
    assert case('shared').body('spendPicked') == ['call this.pick("");', 'call this.to_Coin_m_guarded.spend();'], 'a pointer by its address'


def test_a_shared_pointer_that_is_given_up_may_end_its_object() -> None:
    found = case('shared')
    for slot, role in (('endShared', 'm_shared'), ('clearShared', 'm_shared'), ('replaceShared', 'm_shared'), ('endStandard', 'm_standard'),
                       ('emptyStandard', 'm_standard'), ('nullStandard', 'm_standard'), ('replaceStandard', 'm_standard'), ('endEach', 'm_many')):
        made = [f'call this.to_Coin_{role}.Coin_made("");'] if slot.startswith('replace') else []
        assert found.body(slot) == [f'delete this.to_Coin_{role};', f'call this.to_Coin_{role}.Coin_gone();', *made], slot
    assert 'slot forgetWeak' not in found.text


def test_members_own_what_they_hold_by_owning_pointers() -> None:
    found = case('shared')
    owned = [line for line in found.text.split('\n') if line.startswith('owns ')]
    names = [*(f'm_{name}' for name in ('guarded', 'lent', 'many', 'owed', 'shared', 'standard')), 'one']
    assert sorted(owned) == [f'owns Purse Coin_{name};' for name in names], 'the guarded one by its parent'
    at_once = [f'call this.to_Coin_{name}.Coin_gone();' for name in names if name not in ('m_lent', 'm_owed')]
    assert sorted(found.body('Purse_parts_gone')) == [*at_once, 'emit posted_deletion_of_Coin();']


def test_a_shared_pointer_may_leave_the_deletion_to_the_event_loop() -> None:
    found = case('shared')
    for slot in ('lend', 'endLent', 'owe', 'endOwed'):
        assert re.fullmatch(r'emit posted_\d+\(\);', found.body(slot)[0]), slot
        assert not any(line.startswith('delete') for line in found.body(slot)), slot
    assert found.body('endDoubted')[0] == 'delete this.to_Coin_one;', 'one that may be deleted at once too'


def test_a_parent_may_be_any_object_of_its_class() -> None:
    found = case('visits')
    assert found.body('push') == found.body('pushCarefully') == ['call this.to_Hall.open();'], 'what it is cast to'
    assert 'wire Hall opened() -> Door creak() auto;' in found.wires()
    assert found.body('endHall') == ['delete this.to_Hall;', 'call this.to_Hall.Hall_gone();']
    assert found.body('endParent') == ['delete this.to_QObject;', 'call this.to_Hall.Hall_gone();']
    assert 'to_Cellar' not in found.text, 'and no cellar is opened'


def test_the_next_connection_of_a_server_is_an_object_of_its_own() -> None:
    found = case('visits')
    assert 'wire QTcpSocket disconnected() -> Host leave() auto;' in found.wires()
    assert found.body('send') == ['call this.to_QTcpSocket.disconnectFromHost();']
    assert found.body('disconnectFromHost') == ['emit disconnected();']
    assert 'owns Host QTcpSocket;' in found.text


def test_processed_events_may_call_the_slot_again() -> None:
    found = case('visits')
    assert sorted(place.line for place in found.linked.program.modal.values()) == [78, 79]
    told = json.loads(Watching(found.linked.program, found.written.names, found.written.places).text())['findings']
    assert [(f['rule'], f['line']) for f in told] == [('re-entry', 78), ('re-entry', 79)]


def test_a_pointer_that_a_constructor_fills_has_nothing_to_delete() -> None:
    found = case('filling')
    dying = [line for line in found.body('House_made') if line.startswith('delete')]
    assert dying == [f'delete this.to_Lamp_{name};' for name in ('m_twice', 'm_given', 'm_early', 'm_again')], 'each of these holds one by then'
    assert 'delete this.to_Lamp_m_once;' in found.body('change')
