#pragma once
#include <QObject>

// Looks for something, and tells when it found it.
class Watcher : public QObject
{
    Q_OBJECT

public:
    using QObject::QObject;

public slots:
    void look()
    {
        ++m_looks;
        emit found();
    }

signals:
    void found();

private:
    int m_looks = 0;
};
