#include "barn.h"

BarnJob::BarnJob(BarnStore *store) : Job(store), m_store(store)
{
    connect(&m_ticks, &QTimer::timeout, this, &BarnJob::step);
    connect(this, &Job::progress, store, &Store::setCount);
    connect(this, &Job::done, store, [store] { store->reload(); });
}
void BarnJob::start()
{
    m_ticks.start(10);
    emit progress(0);
}
void BarnJob::stop()
{
    m_ticks.stop();
    Job::stop();
}
void BarnJob::step()
{
    if (!m_store) {
        delete this;
        return;
    }
    switch (++m_at) {
    case 10:
        emit progress(50);
        break;
    case 20:
        stop();
        break;
    default:
        emit progress(m_at);
    }
}
