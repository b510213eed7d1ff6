#pragma once
#include <QObject>

// Works in a thread of its own.
class Worker : public QObject
{
    Q_OBJECT

public:
    using QObject::QObject;

public slots:
    void work(int part) { emit done(part); }

signals:
    void done(int part);
};
