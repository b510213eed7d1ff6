#pragma once
#include <QObject>
#include <QString>

// Takes a number, which it tells on, or a text, which it keeps.
class Gauge : public QObject
{
    Q_OBJECT

public:
    explicit Gauge(QObject *parent = nullptr);
    void start() { emit changed(1); }

signals:
    void changed(int number);
    void changed(const QString &text);

public slots:
    void take(int number);
    void take(const QString &text);

private:
    int m_number = 0;
    QString m_text;
};
