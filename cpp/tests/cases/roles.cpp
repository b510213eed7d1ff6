// Which objects a variable may hold.
#include <QtCore>

class Cell : public QObject {
    Q_OBJECT
public:
    using QObject::QObject;
    virtual void poke() { emit poked(); }
signals:
    void poked();
};

class Loud : public Cell {
    Q_OBJECT
public:
    using Cell::Cell;
    void poke() override { emit shouted(); }
signals:
    void shouted();
};

class Holder {
public:
    static Holder *instance() { static Holder *only = new Holder; return only; }
    Cell *cell = new Cell;
};

class Board : public QObject {
    Q_OBJECT
public:
    Board() : left(new Cell(this)), right(new Cell(this)), loud(new Loud(this)), base(loud) {
        left->setObjectName("left");
        cells.append(right);
    }
    void pokeLeft() { left->poke(); }
    void pokeBase() { base->poke(); }
    void pokeOwn() { base->Cell::poke(); }
    void pokeListed() { for (Cell *cell : cells) cell->poke(); }
    void pokeMade() { make()->poke(); }
    void pokeCast() { if (auto *found = qobject_cast<Loud *>(base)) found->poke(); }
    void pokeSingle() { Holder::instance()->cell->poke(); }
    void pokeGiven() { pass(left); }
    void pass(Cell *given) { given->poke(); }
    void pokeNull() { Cell *none = nullptr; if (none) none->poke(); }
    Cell *make() { return new Cell(this); }
    void follow() { connect(left, &Cell::poked, this, &Board::answer); }
public slots:
    void answer() { static_cast<Cell *>(sender())->poke(); }
private:
    Cell *left, *right;
    Loud *loud;
    Cell *base;
    QList<Cell *> cells;
};

class Bell : public QObject {
    Q_OBJECT
public:
    explicit Bell(Cell *cell) { connect(cell, &Cell::poked, this, &Bell::ring); }
    virtual void ring() { emit rung(); }
signals:
    void rung();
};

class Chime : public Bell {
    Q_OBJECT
public:
    explicit Chime(Cell *cell) : Bell(cell) {}
    void ring() override { emit struck(); }
signals:
    void struck();
};

class Tower : public QObject {
    Q_OBJECT
public:
    Tower() { m_bell = new Bell(m_first); m_chime = new Chime(m_second); }
private:
    Cell *m_first = new Cell;
    Cell *m_second = new Cell;
    Bell *m_bell;
    Chime *m_chime;
    Bell *m_initial = new Bell(m_first);
    std::unique_ptr<Bell> m_unique = std::make_unique<Bell>(m_second);
    QList<Bell *> m_unseen { new Bell(m_first) };
};

class Rack : public QObject {
    Q_OBJECT
public:
    Rack() {
        for (int at = 0; at < 2; at++) connect(&(m_cells[at]), &Cell::poked, this, &Rack::shake);
    }
    void pokeFirst() { m_cells[0].poke(); }
    void shake() { emit shaken(); }
signals:
    void shaken();
private:
    Cell m_cells[2];
};

class Echo : public QObject {
    Q_OBJECT
public:
    Echo() { connect(this, &Echo::called, this, &Echo::answer); }
    void call() { emit called(); }
    virtual void answer() { emit answered(); }
signals:
    void called();
    void answered();
};

class Double : public Echo {
    Q_OBJECT
public:
    void answer() override { emit doubled(); }
signals:
    void doubled();
};

class Valley : public QObject {
    Q_OBJECT
public:
    void callTwice() { m_twice->call(); }
    void callNear() { m_near->call(); }
    void callFar() { m_far->call(); }
private:
    Echo *m_near = new Echo;
    Echo *m_far = new Echo;
    Echo *m_twice = new Double;
};
