#include "mixer.h"

Mixer::Mixer(QObject *parent)
    : QObject(parent), m_left(new Level(this)), m_right(new Level(this))
{
    connect(m_left, &Level::moved, m_right, &Level::set);
    connect(m_right, &Level::moved, this, [this](int value) {
        m_shown = value;
    });
}
