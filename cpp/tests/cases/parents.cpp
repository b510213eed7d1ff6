// Who owns an object whose parent is taken away, or is another one then.
#include <QObject>

class Child : public QObject {
    Q_OBJECT
public:
    using QObject::QObject;
    ~Child() override { emit falling(); }
signals:
    void falling();
};

class House : public QObject {
    Q_OBJECT
public:
    House()
    {
        auto *freed = new Child(this);
        freed->setParent(nullptr);
        m_freed = freed;
        m_bound = new Child;
        m_bound->setParent(this);
        m_bound->setParent(nullptr);
        auto *moved = new Child(this);
        moved->setParent(m_other);
        m_moved = moved;
        m_perhaps = new Child(this);
        if (m_isOpen)
            m_perhaps->setParent(nullptr);
        m_returned = new Child(this);
        if (!m_isOpen) {
            if (m_freed)
                return;
        }
        m_returned->setParent(nullptr);
        Child *last = nullptr;
        while (m_isOpen)
            last = new Child(this);
        last->setParent(nullptr);
        for (int at = 0; at < 3; ++at) {
            auto *each = new Child(this);
            each->setParent(nullptr);
            m_each = each;
        }
        Child *replaced = new Child(this);
        m_replaced = replaced;
        replaced = new Child(this);
        replaced->setParent(nullptr);
        Child *again = new Child;
        again->setParent(this);
        again = new Child;
        again->setParent(nullptr);
    }
    ~House() override
    {
        if (m_rescued)
            m_rescued->setParent(nullptr);
        m_saved->setParent(m_other);
        if (m_isOpen)
            m_left->setParent(nullptr);
    }
    void open() { m_toggled->setParent(nullptr); }

private:
    bool m_isOpen = false;
    QObject *m_other = new QObject;
    Child *m_freed = nullptr, *m_bound = nullptr, *m_moved = nullptr, *m_perhaps = nullptr, *m_returned = nullptr, *m_each = nullptr;
    Child *m_replaced = nullptr;
    Child *m_rescued = new Child(this);
    Child *m_saved = new Child(this);
    Child *m_left = new Child(this);
    Child *m_toggled = new Child(this);
};

class Barn : public QObject {
    Q_OBJECT
public:
    ~Barn() override
    {
        if (m_isOpen) {
            if (m_kept)
                return;
        }
        m_kept->setParent(nullptr);
    }

private:
    bool m_isOpen = false;
    Child *m_kept = new Child(this);
};

class Tent : public QObject {
    Q_OBJECT
};

// Each of its tents is taken down after what it saves from it, but for the last.
class Camp : public QObject {
    Q_OBJECT
public:
    void strike()
    {
        m_lamp->setParent(nullptr);
        if (m_tent)
            delete m_tent;
    }
    void strikeLate()
    {
        delete m_second;
        m_second = nullptr;
        m_stove->setParent(nullptr);
    }
    void strikeOften()
    {
        m_rope->setParent(this);
        delete m_third;
    }
    void strikeAtOnce() { delete m_third; }
    void strikeNow()
    {
        Tent tent;
        auto *pole = new Child(&tent);
        m_pole = pole;
        strikeAtOnce();
        m_pole->setParent(this);
    }

private:
    Tent *m_tent = new Tent, *m_second = new Tent, *m_third = new Tent;
    Child *m_lamp = new Child(m_tent), *m_stove = new Child(m_second), *m_rope = new Child(m_third), *m_pole = nullptr;
};

class Land : public QObject {
    Q_OBJECT
public:
    void end() { delete m_house; delete m_barn; }
    void strikeAll() { m_camp->strike(); m_camp->strikeLate(); m_camp->strikeOften(); m_camp->strikeNow(); }

private:
    House *m_house = new House;
    Barn *m_barn = new Barn;
    Camp *m_camp = new Camp;
};
