#pragma once
#include <QObject>

// What is edited: tells each change.
class Store : public QObject
{
    Q_OBJECT

public:
    using QObject::QObject;
    void change() { emit changed(); }
    void setSaved(int number);

signals:
    void changed();

private:
    int m_saved = 0;
};

// Saves the store soon after each change.
class Saver : public QObject
{
    Q_OBJECT

public:
    explicit Saver(Store *store);

private slots:
    void later();
    void save();

private:
    Store *m_store;
    int m_number = 0;
};
