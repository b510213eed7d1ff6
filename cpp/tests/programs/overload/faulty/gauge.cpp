#include "gauge.h"

Gauge::Gauge(QObject *parent)
    : QObject(parent)
{
    connect(this, qOverload<int>(&Gauge::changed), this, qOverload<int>(&Gauge::take)); // fault: the one that tells on
    connect(this, qOverload<const QString &>(&Gauge::changed), this, qOverload<const QString &>(&Gauge::take));
}

void Gauge::take(int number)
{
    m_number = number;
    emit changed(number + 1);
}

void Gauge::take(const QString &text)
{
    m_text = text;
}
