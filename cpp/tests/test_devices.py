"""Functions of the application that Qt's own call."""
from reading import case


def test_a_function_of_qt_calls_what_the_application_overrides_and_not_itself() -> None:
    assert case('devices').body('write', 'Log') == ['call this.to_Log.writeData("", 0);', 'call this.to_Log.write_2("", 0);']
    assert case('devices').body('write_2', 'Log') == ['call this.to_Log.writeData("", 0);'], 'the overload that the other one calls'
    assert case('devices').body('writeData', 'Log') == ['emit grown();']
