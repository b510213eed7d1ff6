#include "poller.h"

Poller::Poller(QObject *parent)
    : QObject(parent)
{
    m_first.setSingleShot(true);
    m_second.setSingleShot(true);
    connect(&m_first, &QTimer::timeout, this, &Poller::poll);
    connect(&m_second, &QTimer::timeout, this, &Poller::poll);
}

void Poller::start()
{
    m_first.start(0);
    m_second.start(10);
}

void Poller::poll()
{
    ++m_polls;
}
