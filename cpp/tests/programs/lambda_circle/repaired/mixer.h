#pragma once
#include "level.h"

// Two levels, of which the second follows the first.
class Mixer : public QObject
{
    Q_OBJECT

public:
    explicit Mixer(QObject *parent = nullptr);
    void start() { m_left->set(1); }

private:
    Level *m_left;
    Level *m_right;
    int m_shown = 0;
};
