#include "store.h"
#include <QTimer>

Saver::Saver(Store *store)
    : m_store(store)
{
    connect(m_store, &Store::changed, this, &Saver::later);
}

void Saver::later()
{
    QTimer::singleShot(0, this, &Saver::save);
}

void Saver::save()
{
    m_store->setSaved(++m_number);
}
