// Objects that hold others of their class.
#include <QtCore>

class Entry : public QObject {
    Q_OBJECT
signals:
    void counted();
};

class Folder : public Entry {
    Q_OBJECT
public:
    void add(Entry *entry) {
        m_entries.append(entry);
        connect(entry, &Entry::counted, this, &Folder::count);
    }
    void count() { emit counted(); }
private:
    QList<Entry *> m_entries;
};

class Branch : public QObject {
    Q_OBJECT
public:
    Branch() {
        for (Branch *one : m_branches)
            connect(one, &Branch::grown, this, [this] { tell(); });
    }
    void tell() { emit grown(); water(); }
    void water() { if (!m_branches.isEmpty()) m_branches[0]->tell(); }
signals:
    void grown();
private:
    QList<Branch *> m_branches;
};

class Ring : public QObject {
    Q_OBJECT
public:
    void follow(Ring *other) { connect(other, &Ring::turned, this, &Ring::turn); }
    void turn() { emit turned(); }
signals:
    void turned();
};

class Forest {
public:
    void plant() {
        m_top->add(m_inner);
        m_inner->add(new Entry);
        m_ring->follow(m_ring);
    }
    Folder *m_top = new Folder;
    Folder *m_inner = new Folder;
    Branch *m_branch = new Branch;
    Ring *m_ring = new Ring;
};
