#pragma once
#include "worker.h"
#include <QThread>

// Gives the worker its parts.
class Master : public QObject
{
    Q_OBJECT

public:
    explicit Master(QObject *parent = nullptr);
    ~Master() override;
    void start() { emit wanted(1); }

signals:
    void wanted(int part);

private slots:
    void next(int part);

private:
    QThread m_thread;
    Worker *m_worker;
    int m_last = 0;
};
