#include "barn.h"

BarnItem::BarnItem(BarnStore *store) : QObject(store), m_store(store)
{
    connect(store, &Store::countChanged, this, &BarnItem::setRank);
}
void BarnItem::setName(const QString &name)
{
    if (m_name == name)
        return;
    m_name = name;
    emit nameChanged(name);
}
void BarnItem::setRank(int rank)
{
    if (rank != m_rank) {
        m_rank = rank;
        emit rankChanged(rank);
    }
}
void BarnItem::end()
{
    emit ended(this);
}
