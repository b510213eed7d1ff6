#pragma once
#include "level.h"

class Pair : public QObject
{
    Q_OBJECT

public:
    explicit Pair(QObject *parent = nullptr);
    void start() { m_left->set(1); }

private:
    Level *m_left;
    Level *m_right;
};
