// What objects tell while they are being made: only who is connected by then hears it.
#include <QtCore>

// The one store of all, which tells of what it loads as it is made.
class Store : public QObject {
    Q_OBJECT
public:
    static Store *instance() { return s_store ? s_store : (s_store = new Store); }
    void load() { emit added(1); }
signals:
    void added(int item);
private:
    Store() { s_store = this; connect(this, &Store::added, this, &Store::count); load(); }
    void count(int) { emit counted(); }
    static Store *s_store;
signals:
    void counted();
};

class Shop : public QObject {
    Q_OBJECT
public:
    Shop() { connect(Store::instance(), &Store::added, this, &Shop::fill); }
    void fill(int) { Store::instance(); }
};

// A twin: it hands itself to who connects to it, and makes another one.
class Depot : public QObject {
    Q_OBJECT
public:
    Depot();
    void load() { emit added(1); }
signals:
    void added(int item);
};

class Clerk : public QObject {
    Q_OBJECT
public:
    explicit Clerk(Depot *depot) { connect(depot, &Depot::added, this, &Clerk::fill); }
    void fill(int) { new Depot; }
};

Depot::Depot() { new Clerk(this); load(); }

// A twin: who runs while it is made finds it by a variable.
class Hall : public QObject {
    Q_OBJECT
public:
    Hall() { s_hall = this; open(); emit added(1); }
    static void open();
    static Hall *s_hall;
signals:
    void added(int item);
};

class Guest : public QObject {
    Q_OBJECT
public:
    Guest() { connect(Hall::s_hall, &Hall::added, this, &Guest::fill); }
    void fill(int) { new Hall; }
};

void Hall::open() { new Guest; }

// A twin: an initialiser in the class hands it on.
class Yard : public QObject {
    Q_OBJECT
public:
    Yard() { emit added(1); }
signals:
    void added(int item);
private:
    QObject *m_clerk = hire(this);
    static QObject *hire(Yard *yard);
};

class Groom : public QObject {
    Q_OBJECT
public:
    void fill(int) { new Yard; }
};

QObject *Yard::hire(Yard *yard)
{
    auto *groom = new Groom;
    connect(yard, &Yard::added, groom, &Groom::fill);
    return groom;
}

// A twin: an event loop runs meanwhile, and who is made there may connect.
class Inn : public QObject {
    Q_OBJECT
public:
    Inn() { s_inn = this; QCoreApplication::processEvents(); emit added(1); }
    static Inn *s_inn;
signals:
    void added(int item);
};

class Rider : public QObject {
    Q_OBJECT
public:
    Rider() { connect(Inn::s_inn, &Inn::added, this, &Rider::fill); }
    void fill(int) { new Inn; }
};

// A twin: a parent connects each child that it gets.
class Barn : public QObject {
    Q_OBJECT
public:
    void fill(int);
protected:
    void childEvent(QChildEvent *event) override;
private:
    void take(QObject *child);
};

class Cow : public QObject {
    Q_OBJECT
public:
    explicit Cow(Barn *barn)
    {
        setParent(barn);
        emit added(1);
    }
signals:
    void added(int item);
};

void Barn::childEvent(QChildEvent *event) { take(event->child()); }
void Barn::take(QObject *child) { connect(qobject_cast<Cow *>(child), &Cow::added, this, &Barn::fill); }
void Barn::fill(int) { new Cow(this); }

// A base that tells, of objects of a class that connects them before.
class Plot : public QObject {
    Q_OBJECT
public:
    Plot() { connect(this, &Plot::added, this, &Plot::again); }
    void again(int);
signals:
    void added(int item);
};

class Field : public Plot {
    Q_OBJECT
public:
    Field() { grow(); }
    void grow() { emit added(1); }
};

void Plot::again(int) { new Field; }

// What tells of a property that it sets as it is made.
class Gauge : public QObject {
    Q_OBJECT
public:
    Gauge() { setLevel(1); }
    void setLevel(int to)
    {
        if (m_level == to)
            return;
        m_level = to;
        emit levelChanged(to);
    }
signals:
    void levelChanged(int to);
private:
    int m_level = 0;
};

class Panel : public QObject {
    Q_OBJECT
public:
    Panel() { connect(m_gauge, &Gauge::levelChanged, this, &Panel::show); }
    void show(int) { delete m_gauge; m_gauge = new Gauge; }
private:
    Gauge *m_gauge = new Gauge;
};

void all()
{
    new Panel;
    new Shop;
    new Depot;
    new Rider;
    new Field;
}
