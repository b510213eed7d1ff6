#include "poller.h"
#include <QEventLoop>

Poller::Poller(QObject *parent)
    : QObject(parent)
{
    m_first.setSingleShot(true);
    m_second.setSingleShot(true);
    connect(&m_first, &QTimer::timeout, this, &Poller::poll);
    connect(&m_second, &QTimer::timeout, this, &Poller::poll);
}

void Poller::start()
{
    m_first.start(0);
    m_second.start(10);
}

void Poller::poll()
{
    QEventLoop loop;
    QTimer::singleShot(50, &loop, &QEventLoop::quit);
    loop.exec(); // fault: the other timer ends in here, and this slot runs in itself
    ++m_polls;
}
