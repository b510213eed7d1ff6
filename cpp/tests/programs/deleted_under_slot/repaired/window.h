#pragma once
#include "pages.h"

// The window, which closes a page when that asks for it.
class Window : public QObject
{
    Q_OBJECT

public:
    explicit Window(QObject *parent = nullptr);
    void start() { m_first->onButton(); }

public slots:
    void closeTab(Tab *tab);

private:
    Pages *m_pages;
    Tab *m_first;
};
