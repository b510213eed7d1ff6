// What deletes, and what only looks like it.
#include <QtCore>
#include <memory>
#include <vector>

class Part : public QObject {
    Q_OBJECT
public:
    explicit Part(QObject *parent = nullptr) : QObject(parent) {}
    ~Part() override { emit parting(); }
    void work() { emit worked(); }
signals:
    void worked();
    void parting();
};

class Machine : public QObject {
    Q_OBJECT
public:
    Machine() : m_plain(new Part(this)) { connect(m_plain, &Part::worked, this, &Machine::byDelete); }
    void byDelete() { delete m_plain; }
    void byReset() { m_unique.reset(); }
    void byAssignment() { m_unique = std::make_unique<Part>(); }
    void byScoped() { m_scoped.reset(new Part); }
    void byClear() { m_many.clear(); }
    void byAll() { qDeleteAll(m_list); }
    void byScope() { std::unique_ptr<Part> taken = std::move(m_unique); taken->work(); }
    void later() { m_plain->deleteLater(); }
    std::unique_ptr<Part> given() { std::unique_ptr<Part> made = std::make_unique<Part>(); return made; }
    void fresh() { Part *made = new Part; made->work(); delete made; }
    void itself() { delete this; }
private:
    Part *m_plain;
    std::unique_ptr<Part> m_unique;
    QScopedPointer<Part> m_scoped;
    std::vector<std::unique_ptr<Part>> m_many;
    QList<Part *> m_list { new Part };
};

class Knot : public QObject {
    Q_OBJECT
public:
    explicit Knot(Knot *above = nullptr) : m_above(above) {}
    ~Knot() override { qDeleteAll(m_below); }
    void grow() { m_below.append(new Knot(this)); }
    void cut() { delete m_below.takeLast(); }
    void cutAbove() { delete m_above; }
    QList<Knot *> below() const { return m_below; }
    void cutListed() { for (Knot *one : std::as_const(m_below)) delete one; }
    void cutReturned() { for (Knot *one : below()) delete one; }
    void cutCopied() { qDeleteAll(QList<Knot *>(m_below)); }
    void cutListedOther(Knot *other) { for (Knot *one : other->below()) delete one; }
    void cutFound() { while (auto *found = findChild<Knot *>()) delete found; }
    void cutOther(Knot *other) { delete other->m_below.takeLast(); }
private:
    Knot *m_above;
    QList<Knot *> m_below;
};

class Grove : public QObject {
    Q_OBJECT
public:
    ~Grove() override { for (Grove *one : inner()) delete one; emit parted(); }
    void grow() { m_inner.append(new Grove); }
    QList<Grove *> inner() const { return m_inner; }
signals:
    void parted();
private:
    QList<Grove *> m_inner;
};

class Hedge : public QObject {
    Q_OBJECT
public:
    ~Hedge() override { shear(); }
    void grow() { m_inner.append(new Hedge); }
    void shear() { qDeleteAll(m_inner); }
private:
    QList<Hedge *> m_inner;
};
