// Conditions, lambdas, recursion, blocked signals, nested loops.
#include <QtCore>

class Body : public QObject {
    Q_OBJECT
public:
    void branches(int value) {
        if (value > 3)
            emit high();
        else
            emit low();
        if (value == 0)
            return;
        emit other();
    }
    void blocked(Body *given) { QSignalBlocker blocker(given); emit given->high(); }
    void blockedByHand(Body *given) { given->blockSignals(true); emit given->low(); given->blockSignals(false); emit given->high(); }
    void one() { two(); emit high(); }
    void two() { if (m_again) one(); emit low(); }
    void calledHere() { auto now = [this] { emit low(); }; now(); }
    void sorted(QList<int> list) { std::sort(list.begin(), list.end(), [this](int a, int b) { emit low(); return a < b; }); }
    void waits() { QEventLoop loop; loop.exec(); }
    void hands(int value, const QString &words) { takes(value, words); takes(value + 1, words.trimmed()); }
    void takes(int, const QString &) { emit high(); }
signals:
    void high();
    void low();
    void other();
private:
    bool m_again = false;
};

class Conditions : public QObject {
    Q_OBJECT
public:
    void chooses(int kind) {
        switch (kind) {
        case 1:
        case 2:
            emit small();
            break;
        case 3:
            emit middle();
        default:
            emit large();
        }
    }
    void repeats(const QList<int> &list) {
        for (int value : list)
            emit each(value);
        for (int at = 0; at < 3; ++at) {
            if (at == 1)
                continue;
            emit counted();
        }
        while (m_is_on)
            emit turned();
        do
            emit once();
        while (m_is_on);
        m_is_on ? emit either() : emit neither();
        Q_FOREACH (int value, list) {
            if (value == 2)
                continue;
            emit walked(value);
        }
    }
signals:
    void small();
    void middle();
    void large();
    void each(int);
    void counted();
    void walked(int);
    void turned();
    void once();
    void either();
    void neither();
private:
    bool m_is_on = false;
};

class Apart : public QObject {
    Q_OBJECT
public:
    void changes(Apart *given)
    {
        disconnect(given, &Apart::near, this, &Apart::follow);
        connect(given, &Apart::far, this, &Apart::follow);
        emit given->far();
        connect(given, &Apart::near, this, &Apart::follow);
        emit given->near();
    }
    void follow() {}
signals:
    void near();
    void far();
};
