"""Models below proxies: what Qt does to the source of a proxy it does to no other model."""
from reading import case


def test_a_proxy_calls_the_functions_of_its_own_source() -> None:
    found = case('sources')
    assert found.body('setData', 'QSortFilterProxyModel_m_sorted')[-1] == 'call this.to_Rows.setData("", "", 0);'
    assert found.body('setData', 'QSortFilterProxyModel_m_shown')[-1] == 'call this.to_QSortFilterProxyModel_m_sorted.setData("", "", 0);', \
        'which may be a proxy itself'
    assert 'to_Lines' not in found.text, 'and of no other'


def test_a_proxy_has_its_own_source_tell() -> None:
    found = case('sources')
    assert found.body('setData', 'QSortFilterProxyModel_m_sorted')[0] == 'call this.to_Rows.emit_dataChanged("", "", "");'
    assert 'emit_dataChanged' not in found.text.split('class Lines')[1], 'and no other model'
