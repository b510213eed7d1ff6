#include "pair.h"
#include "link.h"

Pair::Pair(QObject *parent)
    : QObject(parent), m_left(new Level(this)), m_right(new Level(this))
{
    link(m_left, &Level::moved, m_right, &Level::set);
    link(m_right, &Level::moved, m_left, &Level::set); // fault: there and back
}
