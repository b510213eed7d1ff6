#include "barn.h"

BarnStore::BarnStore(QObject *parent) : Store(parent), m_timer(new QTimer(this))
{
    m_timer->setObjectName("timer");
    connect(m_timer, &QTimer::timeout, this, &BarnStore::on_timer_timeout);
    connect(this, &BarnStore::itemAdded, this, &Store::changed);
    connect(this, &BarnStore::itemRemoved, this, &Store::changed);
}
BarnStore::~BarnStore()
{
    qDeleteAll(m_items);
}
void BarnStore::load()
{
    if (m_isLoading)
        return;
    m_isLoading = true;
    for (int at = 0; at < 3; ++at)
        add(QString::number(at));
    Store::load();
    m_isLoading = false;
}
void BarnStore::save()
{
    m_timer->start(1000);
}
BarnItem *BarnStore::add(const QString &name)
{
    auto *item = new BarnItem(this);
    item->setName(name);
    connect(item, &BarnItem::nameChanged, this, &Store::changed);
    connect(item, &BarnItem::ended, this, &BarnStore::remove);
    m_items.append(item);
    emit itemAdded(item);
    setCount(m_items.size());
    return item;
}
void BarnStore::remove(BarnItem *item)
{
    m_items.removeOne(item);
    emit itemRemoved(item);
    setCount(m_items.size());
    item->deleteLater();
}
void BarnStore::on_timer_timeout()
{
    if (m_items.isEmpty())
        emit failed("nothing is there");
    else
        emit changed();
}
