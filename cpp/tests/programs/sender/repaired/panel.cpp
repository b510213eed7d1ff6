#include "panel.h"

Panel::Panel(QObject *parent)
    : QObject(parent), m_left(new Level(this)), m_right(new Level(this))
{
    connect(m_left, SIGNAL(moved(int)), this, SLOT(onMoved(int)));
    connect(m_right, SIGNAL(moved(int)), this, SLOT(onMoved(int)));
}

void Panel::onMoved(int value)
{
    auto *level = qobject_cast<Level *>(sender());
    if (level)
        m_last = level->value() + value;
}
