#pragma once
#include "level.h"

// Two levels with one slot, which asks which of them it is called for.
class Panel : public QObject
{
    Q_OBJECT

public:
    explicit Panel(QObject *parent = nullptr);
    void start() { m_left->set(1); }

private slots:
    void onMoved(int value);

private:
    Level *m_left;
    Level *m_right;
    int m_last = 0;
};
