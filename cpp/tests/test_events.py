"""Events that Qt sends within a function: to filters, and to `event`, before the functions that handle them."""
from reading import case

from gammonfig_cpp.event_types import handlers_of, may_run
from gammonfig_cpp.model import Condition


def test_a_filter_and_event_get_what_a_function_of_qt_sends() -> None:
    assert case('events').body('resize', 'Board') == ['call this.to_Board.event_of_resizeEvent("");',
                                                      'call this.to_Watcher.eventFilter_of_resizeEvent("", "");']
    assert case('events').body('move', 'Board') == ['call this.to_Board.moveEvent("");', 'call this.to_Board.event_of_moveEvent("");',
                                                    'call this.to_Watcher.eventFilter_of_moveEvent("", "");']
    assert 'growOther' not in case('events').text, 'nobody filters that one'


def test_they_do_what_their_conditions_let_run() -> None:
    found = case('events')
    assert found.body('eventFilter') == ['emit stretched();', 'emit typed();', 'emit moved();']
    assert found.body('eventFilter_of_resizeEvent') == ['emit stretched();']
    assert found.body('eventFilter_of_moveEvent') == ['emit moved();']


def test_qt_calls_the_functions_that_handle_an_event() -> None:
    found = case('events')
    assert found.body('event', 'Board') == ['call this.mousePressEvent("");', 'call this.moveEvent("");', 'emit resized();']
    assert found.body('event_of_moveEvent') == ['call this.moveEvent("");']
    assert found.body('event_of_resizeEvent') == ['emit resized();']


def test_events_that_the_application_sends() -> None:
    found = case('events')
    for function, handler in (('keyPressEvent', 'keyPressEvent'), ('sendClass', 'wheelEvent')):
        assert found.body(function, 'Desk') == [f'call this.to_Board.event_of_{handler}("");', f'call this.to_Watcher.eventFilter_of_{handler}("", "");']
    assert found.body('sendType') == found.body('move', 'Board'), 'its type is named where it is made'
    assert found.body('sendAny') == ['call this.to_Board.event("");', 'call this.to_Watcher.eventFilter("", "");']
    assert found.body('post') == ['emit posted_66();']
    assert [wire.split(' -> ')[1] for wire in found.wires() if 'posted' in wire] == ['Board event_of_resizeEvent_with() queued;',
                                                                                     'Watcher eventFilter_of_resizeEvent_with() queued;']


def test_a_filter_that_sends_on_what_it_was_given_does_not_come_to_itself() -> None:
    assert case('events').body('eventFilter_of_paintEvent', 'Over') == ['emit done();', 'call this.to_Canvas.paintEvent("");']
    assert case('events').body('repaint') == ['call this.to_Canvas.paintEvent("");', 'call this.to_Over.eventFilter_of_paintEvent("", "");']


def test_an_object_is_told_of_its_children() -> None:
    assert case('events').body('add') == ['call this.childEvent("");']


def test_conditions_on_the_type_of_an_event() -> None:
    def runs(how: str, words: str, handler: str) -> bool:
        return may_run((Condition(how, words, 1, 'e->type()' if how == 'case' else ''),), handler)

    for words in ('e->type() == QEvent::Paint', '(e->type() == QEvent::Paint && on)', '!(e->type() != QEvent::Type::Paint)',
                  'on && (e->type() == QEvent::Paint || e->type() == QEvent::Hide)'):
        assert runs('if', words, 'paintEvent') and not runs('if', words, 'resizeEvent'), words
    for words in ('e->type() == QEvent::Paint || on', 'on', 'e->type() == other', 'e->type() == QEvent::Paint && on ..',
                  'on ? e->type() == QEvent::Paint : off', 'next(e)->type() == QEvent::Paint', 'm_e->type() == QEvent::Paint'):
        assert runs('if', words, 'resizeEvent'), words
    assert not runs('unless', 'e->type() == QEvent::Paint', 'paintEvent') and runs('unless', 'e->type() == QEvent::Show', 'showEvent')
    assert not runs('unless', 'e->type() != QEvent::Paint', 'moveEvent')
    assert runs('case', 'QEvent::Paint, default', 'moveEvent') and not runs('case', 'QEvent::Paint, QEvent::Hide', 'moveEvent')
    assert handlers_of('QWheelEvent') == handlers_of('QEvent::Wheel') == ('wheelEvent',) and handlers_of('Landed') == ('customEvent',)
    assert not handlers_of('QEvent') and not handlers_of('QEvent::TouchEnd') and not handlers_of('QTouchEvent'), 'any'
