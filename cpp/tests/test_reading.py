"""What is read of each form that C++ has for it."""
import json
from dataclasses import replace

from reading import case, facts
from gammonfig_cpp.model import Facts
from gammonfig_cpp.threads import Threads
from gammonfig_cpp.watching import Watching
from gammonfig_cpp.whole import Whole


def test_each_form_of_connect_is_a_wire() -> None:
    wires = case('connects').wires()
    for slot in ('byMember()', 'byOverload(int)', 'byCast(QString)', 'byText(int)', 'byShortText()', 'fewer(int)', 'again(int)',
                 'lambda_55()', 'lambda_57(int)', 'bound()', 'held()', 'byTemplate()', 'byHelper()'):
        assert sum(f'-> Receiver {slot} auto;' in w for w in wires) == 1, slot


def test_types_of_connections() -> None:
    wires = case('connects').wires()
    assert 'wire Sender plain() -> Receiver queued_() queued;' in wires
    assert 'wire Sender plain() -> Receiver lambda_56() direct;' in wires, 'a functor without a context is called directly'
    assert 'wire Sender plain() -> Functions noArguments() direct;' in wires


def test_a_converted_argument_is_not_handed_on() -> None:
    found = case('connects')
    assert 'wire Sender real(int) -> Receiver converted_with(int) auto;' in found.wires()
    assert found.body('converted_with') == ['call this.converted(0);']


def test_a_connection_that_is_not_understood_is_listed() -> None:
    found = case('connects').linked
    assert [(why, c.place.line) for why, c in found.dropped] == [("the signal isn't understood", 66)]
    assert found.understood == 17


def test_function_objects_that_are_handed_on_and_kept() -> None:
    assert case('connects').body('finish') == ['call this.to_Functions.lambda_83();', 'call this.to_Functions.lambda_84();']
    calls = ['call this.to_Keeper.keep("");', 'call this.to_Keeper.finish();']
    assert case('connects').body('keepAll') == ['call this.to_Keeper.Keeper_made("");', *calls], 'they are called where they are kept'


def test_function_objects_that_are_known_are_not_listed() -> None:
    found = case('functions')
    for name, to in (('First', 52), ('Late', 22), ('Named', 23), ('All', 24), ('Cleared', 28), ('Local', 38)):
        assert found.body(f'call{name}') == [f'call this.lambda_{to}();']
    assert found.body('callBound') == ['call this.to_Bell_bell.ring();']
    assert found.body('callPointer') == ['call this.to_Functions.toll("");']
    assert found.body('further') == ['call this.lambda_40();']
    unknown = [(u.kind, u.what, u.place.line) for u in found.linked.whole.unknown]
    assert unknown == [('function object', what, line) for what, line in (('strange_()', 44), ('empty_()', 45), ('given()', 46), ('given()', 48))]


def test_functions_that_a_library_is_handed() -> None:
    found = case('handing')
    assert found.body('byFunction') == ['call this.to_Functions.strikeOne("");']
    assert found.body('byStatic') == ['call this.to_Functions.Tower_strikeAny("");']
    assert found.body('byVariable') == ['call this.to_Functions.strikeOne("");']
    posted = {line for name in ('byMember', 'laterByFunction') for line in found.body(name)}
    assert posted == {'emit posted_25();', 'emit posted_26();'}
    for wire in ('Tower posted_25() -> Tower strikeAll()', 'Tower posted_26() -> Functions strikeOne_with()'):
        assert f'wire {wire} queued;' in found.wires(), wire
    assert [(u.kind, u.place.line) for u in found.linked.whole.unknown] == [('functor', 22), ('functor', 23), ('functor', 24)]


def test_a_helper_is_read_at_its_calls() -> None:
    assert case('connects').place('wire Sender plain() -> Receiver byHelper()').split('\t')[2:4] == ['connects.cpp', '65']


def test_setters_that_compare_are_properties() -> None:
    found = case('setters')
    for setter, name in (('setLevel', 'level'), ('setName', 'name'), ('setMuted', 'muted'), ('setDepth', 'depth'),
                         ('setPlace', 'place'), ('setRank', 'rank')):
        assert found.body(setter) == [f'set this.{name} = to;']
    assert '    property int level notify levelChanged(int);' in found.text
    assert '    property int muted notify mutedChanged();' in found.text


def test_setters_that_do_not_compare_emit() -> None:
    found = case('setters')
    assert found.body('setAlways') == ['emit alwaysChanged(to);']
    assert found.body('setOther') == ['emit otherChanged(0);'], 'another value is kept than the one that was compared'
    assert found.body('setClamped') == ['emit clampedChanged(0);'], 'the parameter is changed first'
    assert found.body('setAfter') == ['emit afterChanged(to);'], 'another value is kept than the one that was compared'
    assert found.body('setInner') == ['emit innerChanged(to);'], 'a further condition stands before the emission'


def test_setters_that_emit_beside() -> None:
    found = case('setters')
    assert found.body('setShare') == ['emit shareChanged(0);', 'emit shareChanged(to);'], 'in another branch: nobody is told twice'
    assert found.body('setTwice') == ['set this.twice = to;', 'emit twiceChanged(0);']


def test_values_that_are_handed_on() -> None:
    assert case('setters').body('run') == ['call this.to_Kept.setLevel(given);', 'call this.to_Kept.setAlways(7);',
                                           'call this.to_Kept.setName("");', 'call this.to_Kept.setOther(0);',
                                           'call this.to_Kept.setLevel(0);']
    assert case('bodies').body('hands') == ['call this.takes(value, words);', 'call this.takes(0, "");']


def test_each_instance_of_a_template_is_read() -> None:
    found = case('templates')
    assert found.body('drop') == ['delete this.to_Apple_m_apple;', 'call this.to_Apple_m_apple.Apple_gone();'], 'no pear dies where apples do'
    assert found.body('drop_2') == ['delete this.to_Pear_m_pear;', 'call this.to_Pear_m_pear.Pear_gone();']
    assert found.body('squeeze') == ['call this.to_Apple_m_apple.press();'], 'what its argument decides'
    assert found.body('pressSame') == ['call this.to_Pear_m_pear.press();', 'call this.to_Functions.same("");']
    assert found.body('grow') == ['call this.to_Functions.grown();', 'call this.to_Functions.grown_2();']
    wires = found.wires()
    assert 'wire Apple_made pressed() -> Functions lambda_28() auto;' in wires and 'wire Pear_made pressed() -> Functions lambda_28_2() auto;' in wires
    assert [u for u in found.linked.whole.unknown if 'call' in u.kind or 'template' in u.kind] == []


def test_each_instance_of_a_class_template_is_read() -> None:
    found = case('templates')
    assert found.body('cut', 'Box') == ['delete this.to_Apple_m_apple;', 'call this.to_Apple_m_apple.Apple_gone();']
    assert found.body('cut', 'Box_2') == ['delete this.to_Pear_m_pear;', 'call this.to_Pear_m_pear.Pear_gone();']
    assert found.body('cutPears') == ['call this.to_Box_2.cut();']
    assert found.body('shakes') == ['call this.to_Crate.shake_2();'], 'a class below an instance overrides'


def test_units_tell_of_an_instance_what_they_use() -> None:
    box = next(c for c in facts()['templates'].classes.values() if c.name == 'Box' and len(c.methods) > 2)
    names = list(box.methods)
    units = [Facts(name, classes={box.key: replace(box, methods={name: box.methods[name]})}) for name in names]
    assert set(Whole(units).classes[box.key].methods) == set(names)


def test_a_generic_lambda_does_what_its_instances_do() -> None:
    found = case('templates')
    assert [line.split('.')[-1] for line in found.body('lambda_63')] == ['press();', 'press();']


def test_a_variable_holds_what_its_class_lets_it() -> None:
    found = case('templates')
    assert found.body('pressKeys') == ['call this.to_Apple_m_apple.press();'], 'a map holds keys and values'
    assert found.body('pressValues') == ['call this.to_Pear_m_pear.press();']
    assert found.body('pressFound') == ['call this.to_Pear_m_pear.press();'], 'an iterator leads to what the list holds'
    assert found.body('pressMapped') == ['call this.to_Apple_m_apple.press();', 'call this.to_Pear_m_pear.press();']


def test_deletions() -> None:
    found = case('deletions')
    for slot, role in (('byDelete', 'Part_m_plain'), ('byReset', 'Part_m_unique'), ('byAssignment', 'Part_m_unique'),
                       ('byScoped', 'Part_m_scoped'), ('byAll', 'Part_m_list'), ('byScope', 'Part_m_unique'), ('byClear', 'Part')):
        assert f'delete this.to_{role};' in found.body(slot), slot
        assert f'call this.to_{role}.Part_gone();' in found.body(slot), slot
    assert found.body('itself') == ['delete this;', 'call this.Machine_parts_gone();']


def test_what_is_no_deletion() -> None:
    found = case('deletions')
    assert found.body('later_') == ['emit posted_28();'], 'a later deletion brings about nothing at once'
    assert 'wire Machine posted_28() -> Functions delete_Part() queued;' in found.wires()
    assert found.body('given') == ['call this.to_Part_made.Part_made("");'], 'what is returned is given away'
    assert not any(s.startswith('delete') for s in found.body('fresh')), 'what the function made itself is no object of others'


def test_what_an_object_deletes_of_its_own() -> None:
    program = case('deletions').linked.program
    own = {m.name: [s.is_own for s in m.steps if s.kind == 'delete'] for m in program.members.values()}
    assert own['cut'] == [True], 'an object is not its own child'
    assert own['cutFound'] == [True], 'nor is it found among its children'
    assert own['cutListed'] == own['cutReturned'] == own['cutCopied'] == [True], 'in a loop, by a function, as a copy'
    assert own['cutListedOther'] == [False]
    assert own['shear'] == [True], 'what a function deletes that its destructor calls is owned'
    assert own['cutAbove'] == [False], 'what a member only knows of may be above'
    assert own['cutOther'] == [False], 'the child of another object may be this one'


def test_what_a_destructor_deletes_is_owned() -> None:
    found = case('deletions')
    assert not any(line.startswith('delete') for line in found.body('Grove_gone')), found.body('Grove_gone')


def test_what_ends_without_a_statement() -> None:
    found = case('ends')
    assert found.body('cut') == ['delete this.to_Branch;', 'call this.to_Branch.Branch_parts_gone();']
    assert found.body('Branch_parts_gone') == ['call this.to_Leaf_m_child.Leaf_gone();', 'call this.to_Leaf_m_member.Leaf_gone();'], \
        'members and children end with their owner'
    assert found.body('guards') == ['call this.to_Guard.Guard_made("");', 'call this.to_Guard.Guard_gone();'], 'a local leaves its scope'
    assert found.body('sinks') == ['delete this.to_Leaf_39;', 'call this.to_Leaf_39.Leaf_gone();'], 'an argument that is owned ends'
    assert 'Leaf_39.Leaf_gone' not in ' '.join(found.body('hands')), 'what is handed on is given away'


def test_what_the_event_loop_deletes() -> None:
    found = case('ends')
    assert found.body('delete_Branch') == ['delete this.to_Branch;', 'call this.to_Branch.Branch_parts_gone();']
    assert 'wire Tree posted_40() -> Functions delete_Branch() queued;' in found.wires()
    assert any(w.startswith('wire Closing posted_deletion_of_Closing() -> Functions delete_Closing() queued;') for w in found.wires())
    assert 'delete_Staying' not in found.text, 'only what has WA_DeleteOnClose deletes itself when it is closed'


def test_what_is_taken_out_is_what_was_put_in() -> None:
    assert case('ends').body('drop') == ['delete this.to_QLabel;']
    assert 'owns Branch Leaf_m_child;' in case('ends').text and 'owns Branch Leaf;' not in case('ends').text


def test_what_takes_the_place_of_another() -> None:
    """What is put into an area deletes what was in it, which the first one can't."""
    text = case('ends').text
    assert text.count('slot setWidget(') == 1 and 'call this.to_QScrollArea_m_pages.setWidget(' in text
    assert any(line.startswith('delete this.to_Staying') for line in case('ends').body('setWidget'))


def test_owners() -> None:
    text = case('deletions').text
    for role in ('Part_m_unique', 'Part_m_plain', 'Part_m_scoped'):
        assert f'owns Machine {role};' in text


def test_owners_by_what_functions_of_qt_do() -> None:
    """`setParent` names an owner. What a layout is given, the widget owns around which it lies, and it doesn't die with the layout."""
    found = case('owners')
    assert [line for line in found.text.split('\n') if line.startswith('owns ')] == [
        'owns Crown QVBoxLayout;', 'owns Crown Leaf_m_laid;', 'owns Crown Leaf_m_adopted;', 'owns Crown Twig;',
        'owns QVBoxLayout QHBoxLayout;']
    assert found.body('flatten', 'Crown') == ['delete this.to_QHBoxLayout;']
    assert found.body('Crown_parts_gone') == [
        f'call this.to_{name}.Leaf_gone();' for name in ('Leaf_m_laid', 'Leaf_m_adopted', 'Twig')]


def test_a_parent_that_is_taken_away_owns_no_more() -> None:
    """By a call that each way takes: after the owner was named, before it dies, or in its destructor."""
    found = case('parents')
    assert [line for line in found.text.split('\n') if line.startswith('owns ')] == [
        'owns Barn Child_m_kept;', *(f'owns House Child_{name};' for name in ('m_perhaps', 'm_returned', 'last', 'replaced', 'again', 'm_left', 'm_toggled')),
        'owns Tent_m_second Child_m_stove;', 'owns Tent_m_third Child_m_rope;']
    sites = found.linked.whole.sites
    owned = {sites[child.key].hint for owner, child, _ in found.linked.program.owners() if sites.get(owner.key) is not None
             and sites[owner.key].hint == 'm_other'}
    assert owned == {'moved', 'm_saved'}, 'the other parent owns'


def test_a_function_whose_source_is_not_read_is_watched() -> None:
    found = case('owners')
    assert found.wires() == ['wire Leaf_m_leaf falling() -> Wood elsewhere() auto;']
    assert json.loads(Watching(found.linked.program, found.written.names, found.written.places).text(False))['findings'] == []


def test_what_waits_for_an_answer_does_not_ask_again() -> None:
    found = case('answers')
    told = json.loads(Watching(found.linked.program, found.written.names, found.written.places).text())['findings']
    assert [(f['rule'], f['line']) for f in told] == [('re-entry', 20)]


def test_a_role_for_each_member() -> None:
    found = case('roles')
    expected = {'pokeLeft': 'Cell_left.poke', 'pokeBase': 'Loud.poke_2', 'pokeOwn': 'Loud.poke', 'pokeListed': 'Cell_right.poke',
                'pokeMade': 'Cell_45.poke', 'pokeCast': 'Loud.poke_2', 'pokeSingle': 'Cell_cell.poke', 'pass': 'Cell_left.poke'}
    for slot, target in expected.items():
        assert f'call this.to_{target}();' in found.body(slot), slot
    assert 'slot pokeNull' not in found.text, 'what is null alone is no object'


def test_sender_is_what_is_connected() -> None:
    assert case('roles').body('answer') == ['call this.to_Cell_left.poke();']


def test_a_constructor_is_read_for_each_object() -> None:
    wires = case('roles').wires()
    assert 'wire Cell_m_first poked() -> Bell_m_bell ring() auto;' in wires
    assert 'wire Cell_m_second poked() -> Chime ring_2() auto;' in wires, 'also through the constructor of a class below'
    assert 'wire Cell_m_second poked() -> Bell_m_bell ring() auto;' not in wires
    for cell in ('Cell_m_first', 'Cell_m_second'):
        assert f'wire {cell} poked() -> Bell_m_unseen ring() auto;' in wires, 'what is made in a list isn\'t seen'
    for cell, bell in (('Cell_m_first', 'Bell_m_initial'), ('Cell_m_second', 'Bell_m_unique')):
        assert [w for w in wires if f'-> {bell} ' in w] == [f'wire {cell} poked() -> {bell} ring() auto;']


def test_an_array_of_objects_is_a_role() -> None:
    found = case('roles')
    assert found.body('pokeFirst') == ['call this.to_Cell_m_cells.poke();']
    assert 'wire Cell_m_cells poked() -> Rack shake() auto;' in found.wires()


def test_what_a_class_connects_to_itself_each_role_connects_to_its_own() -> None:
    wires = [w for w in case('roles').wires() if 'Echo' in w or 'Double' in w]
    for role in ('Echo_m_near', 'Echo_m_far'):
        assert [w for w in wires if w.startswith(f'wire {role} ')] == [f'wire {role} called() -> {role} answer() auto;']
    assert 'wire Double called() -> Double answer_2() auto;' in wires, 'to what a class below has in its place'
    assert not any(w.startswith('wire Echo ') for w in wires)
    assert 'wire Echo called() -> Echo answer() auto;' in case('roles', 'class').wires()


def test_a_role_for_each_class_or_place() -> None:
    by_class, by_site = case('roles', 'class'), case('roles', 'site')
    assert by_class.body('pokeLeft') == ['call this.to_Cell.poke();', 'call this.to_Loud.poke_2();']
    assert 'Cell_left' not in by_class.text
    assert by_site.body('pokeLeft') == ['call this.to_Cell_left.poke();']


def test_conditions_stand_beside_statements() -> None:
    found = case('bodies')
    lines = [line.split('\t') for line in found.written.places.text().split('\n')]
    conditions = {line[5]: line[6:] for line in lines if len(line) > 6}
    assert conditions['emit high()'] == ['if `value > 3`']
    assert conditions['emit low()'] == ['unless `value > 3`']
    assert conditions['emit other()'] == ['unless `value == 0`']
    assert conditions['emit given->high()'] == ['blocked by `blocker(given)`']
    assert conditions['emit given->low()'] == ['blocked by `given->blockSignals(true)`']
    assert conditions['emit given->far()'] == ['disconnected by `disconnect(given, &Apart::near, this, &Apart::follow)`']
    assert 'emit given->near()' not in conditions, 'the connection is made again'


def test_switches_and_loops_are_conditions() -> None:
    lines = [line.split('\t') for line in case('bodies').written.places.text().split('\n')]
    conditions = {line[5]: line[6:] for line in lines if len(line) > 6}
    assert conditions['emit small()'] == ['case `1, 2` of `kind`']
    assert conditions['emit middle()'] == ['case `3` of `kind`']
    assert conditions['emit large()'] == ['case `3, default` of `kind`'], 'a case without an end goes on into the next'
    assert conditions['emit each(value)'] == ['in `for (int value : list)`']
    assert conditions['emit counted()'] == ['in `for (int at = 0; at < 3; ++at)`', 'unless `at == 1`']
    assert conditions['emit walked(value)'] == ['in `Q_FOREACH (int value, list)`', 'unless `value == 2`'], 'a loop that is a macro'
    assert conditions['emit turned()'] == ['in `while (m_is_on)`']
    assert conditions['emit once()'] == ['in `do .. while (m_is_on)`']
    assert conditions['emit either()'] == ['if `m_is_on`']


def test_recursion_is_folded_and_listed() -> None:
    found = case('bodies')
    assert found.body('one') == found.body('two') == ['emit high();', 'emit low();']
    assert ['Body::one()', 'Body::two()'] in found.linked.program.recursions


def test_lambdas_that_are_called() -> None:
    found = case('bodies')
    assert found.body('calledHere') == ['call this.lambda_20();']
    assert found.body('sorted') == ['call this.lambda_21(0, 0);']
    assert any(u.kind == 'functor' for u in found.linked.whole.unknown)


def test_nested_event_loops_are_marked() -> None:
    assert [p.line for p in case('bodies').linked.program.modal.values()] == [22]


def test_threads_and_event_loops_make_queued_wires() -> None:
    wires = case('threads').wires()
    for wire in ('Master wanted() -> Worker work()', 'Worker done() -> Master next()', 'Loop stepped() -> Master next()',
                 'Master posted_33() -> Master next()', 'Master posted_34() -> Master lambda_34()', 'Master posted_35() -> Master next()'):
        assert f'wire {wire} queued;' in wires, wire
    assert 'wire Loop helped() -> Master next() direct;' in wires
    assert case('threads').body('invokesNow') == ['call this.to_Master.next();']


def test_what_a_call_by_name_is_handed_is_no_type_of_connection() -> None:
    found = case('threads')
    assert found.body('invokesWith') == ['call this.to_Master.with(0);']
    assert 'wire Master posted_38() -> Master with_with() queued;' in found.wires()
    assert not [u for u in found.linked.whole.unknown if u.kind == 'connection type']


def test_what_is_made_in_a_thread_lives_there() -> None:
    wires = case('threads').wires()
    for wire in ('Engine ticked() -> Driver see() queued;', 'QTimer_m_timer timeout() -> Engine tick() auto;',
                 'Job finished() -> Driver see() queued;'):
        assert f'wire {wire}' in wires, wire


def test_a_member_of_what_a_thread_makes_lives_there() -> None:
    """Also where a unit that doesn't see the constructor told of the member first."""
    linked = case('threads').linked
    sites = linked.whole.sites
    key = next(key for key in sites if key.endswith('Engine@FI@m_timer'))
    site, sites[key] = sites[key], sites[key]._replace(within='', function='')
    assert key in Threads(linked.whole, linked.program.objects).sites()
    sites[key] = site


def test_a_thread_is_no_way_back_by_an_event_loop() -> None:
    found = case('threads')
    assert 'wire Machine posted_run() -> Machine run() queued;  // Qt posts run' in found.wires()
    told = json.loads(Watching(found.linked.program, found.written.names, found.written.places).text())['findings']
    assert not [f for f in told if f['rule'] == 're-entry']


def test_of_circles_through_an_event_loop_one_with_blocked_signals_is_told_last() -> None:
    found = case('threads')
    told = json.loads(Watching(found.linked.program, found.written.names, found.written.places).text())['findings']
    ways = [{step['to'] for step in f['chain']} for f in told if 'Panel' in str(f['chain'])]
    blocked = [any(c.startswith('blocked by') for step in f['chain'] for c in step.get('conditions', ())) for f in told if 'Panel' in str(f['chain'])]
    assert [('Knob_m_knob.push()' in way, is_blocked) for way, is_blocked in zip(ways, blocked)] == [(True, False), (False, True)]


def test_a_pool_runs_what_it_is_handed() -> None:
    found = case('threads')
    assert [w for w in found.wires() if 'posted_' in w and 'run' in w and 'Machine' not in w] == ['wire Driver posted_86() -> Job run() queued;']
    assert 'wire Driver posted_89() -> Driver lambda_89() queued;' in found.wires()
    assert {name for name in found.linked.program.silent if 'QThreadPool' in name} == {'QThreadPool::clear'}, 'which runs nothing'


def test_bindings() -> None:
    text = case('bindings').text
    assert '    property int m_width notify widthChanged();' in text
    assert 'binding binding_8 Box.m_area (Box s0) = s0.m_width;' in text
    assert 'wire Box m_area_changed() -> Box lambda_9() direct;' in text
    assert case('bindings').body('grow') == ['set this.m_width = 0;']


def test_circles_by_deaths() -> None:
    """A circle that goes only by the end of an object is told apart from one that goes without."""
    found = case('ends')
    told = json.loads(Watching(found.linked.program, found.written.names, found.written.places).text())
    assert {f['chain'][0]['from'] for f in told['findings']} == {'Ring.posted_83()', 'Ring.turned()'}
    assert 'Ring.next()' in told['by_death'] and 'Ring.turn()' not in told['by_death']


def test_circles_that_go_up_a_tree() -> None:
    """A folder tells what its entries tell: not so where a step goes down, too, or where it isn't known who holds whom."""
    found = case('trees')
    told = json.loads(Watching(found.linked.program, found.written.names, found.written.places).text())
    climbing = {name for names in told['climbing'] for name in names}
    assert climbing == {'Folder_m_inner.count()', 'Folder_m_inner.counted()'}
    assert 'wire Ring turned() -> Ring turn() auto;' in found.wires()
    assert 'call this.tell();' in found.body('lambda_27')


def test_classes_of_qt() -> None:
    found = case('widgets')
    assert found.body('setValue', 'QSlider') == ['set this.value = a1;'], 'WRITE and NOTIFY come from the header'
    assert found.body('setValue', 'QScrollBar') == ['set this.value = a1;', 'emit rangeChanged(0, 0);'], 'also where the table has a line for a class below'
    assert found.body('click', 'QPushButton') == ['emit pressed();', 'emit released();', 'emit clicked(0);', 'emit toggled(0);']
    assert found.body('close', 'Form') == ['call this.to_Form.closeEvent("");'], 'Qt calls a virtual function back'
    assert 'wire QAction triggered(int) -> Form go() auto;' in found.wires(), 'addAction connects'
    assert found.body('ok') == ['call this.accept();']
    assert found.body('accept') == ['call this.to_Ask.done(0);'], 'a virtual function of Qt has a line of its own'
    assert found.body('done') == ['emit accepted();', 'emit finished(0);', 'emit rejected();']
    assert found.linked.program.silent == {'QPushButton::setFlat': 1}


def test_an_item_is_told_of_by_its_list() -> None:
    found = case('widgets')
    for slot, lists in (('check', ['m_one']), ('checkNext', ['m_other']), ('checkAny', ['m_one', 'm_other'])):
        called = [line.split('.')[-1].split('(')[0] for line in found.body(slot) if 'setCheckState' in line]
        told = {line for name in called for line in found.body(name, 'QListWidgetItem')}
        assert [it for it in ('m_one', 'm_other') if any(it in line or 'to_QListWidget.' in line for line in told)] == lists, (slot, told)


def test_a_selection_of_a_view_ends_an_editor() -> None:
    found = case('widgets')
    start = 'wire QItemSelectionModel currentChanged(QString, QString) -> Cells setData_with(QString, QString) direct;'
    assert any(wire.startswith(start) for wire in found.wires()), 'Qt itself makes the selection: somebody is connected to it'
    assert found.body('setData_with') == ['call this.setData(current, "", 0);']


def test_members_that_lead_to_nothing() -> None:
    whole, lean = case('connects'), case('connects', lean=True)
    assert 'slot byMember()' in whole.text
    assert lean.wires() == [], 'no slot of this program leads to anything'
