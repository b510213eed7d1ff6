"""What constructors run that isn't written in them."""
from reading import case


def test_a_constructor_runs_those_of_bases_and_members() -> None:
    runs = ['call this.Place_made();', 'call this.to_Bell_m_bell.Bell_made();', 'call this.to_Bell_top.Bell_made();', 'call this.to_Bell_m_fresh.Bell_made();']
    assert case('members').body('Town_made_3') == runs, 'also of a member of a member, and what an initialiser in the class makes'
    assert case('members').body('Map_made') == ['call this.to_Town_m_town.Town_made_3();', 'call this.to_Map_Bell_m_bell.Bell_made();']


def test_a_constructor_that_hands_over_to_another_runs_that_alone() -> None:
    assert case('members').body('Town_made') == ['call this.Town_made_3();']


def test_an_initialiser_takes_the_place_of_what_the_class_says() -> None:
    runs = ['call this.to_Bell_top.Bell_made();', 'call this.Place_made_2(1);', 'call this.to_Bell_m_bell.Bell_made_2(2);']
    assert case('members').body('Town_made_2') == runs
