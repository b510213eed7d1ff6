#pragma once
#include <QObject>

// A level that tells each time that it is set.
class Level : public QObject
{
    Q_OBJECT

public:
    using QObject::QObject;
    int value() const { return m_value; }

public slots:
    void set(int value)
    {
        m_value = value;
        emit moved(value);
    }

signals:
    void moved(int value);

private:
    int m_value = 0;
};
