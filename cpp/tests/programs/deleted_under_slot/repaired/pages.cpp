#include "pages.h"

Tab *Pages::add()
{
    auto *tab = new Tab(this);
    m_tabs.append(tab);
    return tab;
}

void Pages::remove(Tab *tab)
{
    m_tabs.removeOne(tab);
    tab->deleteLater();
}
