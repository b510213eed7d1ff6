#pragma once
#include "tab.h"
#include <QList>

// Holds the pages.
class Pages : public QObject
{
    Q_OBJECT

public:
    using QObject::QObject;
    Tab *add();
    void remove(Tab *tab);

private:
    QList<Tab *> m_tabs;
};
