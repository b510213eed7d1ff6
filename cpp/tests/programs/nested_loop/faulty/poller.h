#pragma once
#include <QObject>
#include <QTimer>

// Asks a question when one of its two timers is over.
class Poller : public QObject
{
    Q_OBJECT

public:
    explicit Poller(QObject *parent = nullptr);
    void start();

private slots:
    void poll();

private:
    QTimer m_first;
    QTimer m_second;
    int m_polls = 0;
};
