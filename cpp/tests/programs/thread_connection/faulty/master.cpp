#include "master.h"

Master::Master(QObject *parent)
    : QObject(parent), m_worker(new Worker)
{
    m_worker->moveToThread(&m_thread);
    connect(this, &Master::wanted, m_worker, &Worker::work);
    connect(m_worker, &Worker::done, this, &Master::next);
    m_thread.start();
}

Master::~Master()
{
    m_thread.quit();
    m_thread.wait();
    delete m_worker;
}

void Master::next(int part)
{
    m_last = part;
    emit wanted(part + 1); // fault: each part that is done wants one more, from thread to thread, without end
}
