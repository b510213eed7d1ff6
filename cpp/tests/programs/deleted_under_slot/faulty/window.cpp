#include "window.h"

Window::Window(QObject *parent)
    : QObject(parent), m_pages(new Pages(this)), m_first(m_pages->add())
{
    connect(m_first, &Tab::closeWanted, this, &Window::closeTab);
}

void Window::closeTab(Tab *tab)
{
    m_pages->remove(tab);
}
