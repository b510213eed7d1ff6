// Who dies on a circle through the event loop: the object that was told to already, or one after another.
#include <QObject>
#include <QTimer>

class Guest : public QObject {
    Q_OBJECT
public:
    Guest() { connect(&m_timer, &QTimer::timeout, this, &Guest::leave); }
    ~Guest() override { wait(); emit gone(); }
    void wait() { m_timer.start(); }
    void leave() { emit left(); }
signals:
    void gone();
    void left();
private:
    QTimer m_timer;
};

// Whoever is gone has died, and isn't told so again.
class Host : public QObject {
    Q_OBJECT
public:
    void greet() {
        auto *guest = new Guest;
        connect(guest, &Guest::gone, this, &Host::forget);
        connect(guest, &Guest::left, this, &Host::forget);
    }
    void forget() {
        Guest *guest = qobject_cast<Guest *>(sender());
        drop(guest);
    }
private:
    void drop(Guest *guest) { guest->deleteLater(); }
};

// One that dies has the next one tell, which is deleted.
class Link : public QObject {
    Q_OBJECT
public:
    explicit Link(Link *next) : m_next(next) {}
    ~Link() override { m_next->tell(); }
    void tell() { emit told(); }
signals:
    void told();
private:
    Link *m_next;
};

class Chain : public QObject {
    Q_OBJECT
public:
    void add(Link *next) {
        auto *link = new Link(next);
        connect(link, &Link::told, this, &Chain::cut);
    }
    void cut() { sender()->deleteLater(); }
};

// Who is deleted isn't the one that tells, or may be another one.
class Coin : public QObject {
    Q_OBJECT
public:
    ~Coin() override { emit spent(); }
signals:
    void spent();
};

class Purse : public QObject {
    Q_OBJECT
public:
    void add() {
        m_coin = new Coin;
        connect(m_coin, &Coin::spent, this, &Purse::pay);
    }
    void pay() { m_coin->deleteLater(); }
private:
    Coin *m_coin = nullptr;
};

class Leaf : public QObject {
    Q_OBJECT
public:
    ~Leaf() override { emit fallen(); }
signals:
    void fallen();
};

class Tree : public QObject {
    Q_OBJECT
public:
    void grow() {
        auto *leaf = new Leaf;
        connect(leaf, &Leaf::fallen, this, &Tree::shed);
    }
    void shake(Leaf *leaf) { shedOne(leaf); }
    void shed() { shedOne(static_cast<Leaf *>(sender())); }
private:
    void shedOne(Leaf *leaf) { leaf->deleteLater(); }
};

// A slot that is told of one object deletes what it was told of before.
class Crumb : public QObject {
    Q_OBJECT
public:
    ~Crumb() override { emit eaten(); }
signals:
    void eaten();
};

class Table : public QObject {
    Q_OBJECT
public:
    void lay() {
        auto *crumb = new Crumb;
        connect(crumb, &Crumb::eaten, this, &Table::sweep);
        m_crumbs.append(crumb);
    }
    void sweep() {
        auto *crumb = qobject_cast<Crumb *>(sender());
        for (Crumb *other : m_crumbs)
            connect(other, &Crumb::eaten, this, [crumb] { crumb->deleteLater(); });
    }
private:
    QList<Crumb *> m_crumbs;
};
