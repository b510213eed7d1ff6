// What ends without a statement of its own: members, locals, arguments; and what the event loop deletes.
#include <QLabel>
#include <QScrollArea>
#include <memory>

class Leaf : public QObject {
    Q_OBJECT
public:
    explicit Leaf(QObject *parent = nullptr) : QObject(parent) {}
    ~Leaf() override { emit falling(); }
signals:
    void falling();
};

class Guard {
public:
    explicit Guard(Leaf *leaf) : m_leaf(leaf) {}
    ~Guard() { emit m_leaf->falling(); }
private:
    Leaf *m_leaf;
};

class Branch : public QObject {
    Q_OBJECT
public:
    Branch() { m_child = new Leaf(this); }
private:
    Leaf m_member;
    Leaf *m_child;
};

class Tree : public QObject {
    Q_OBJECT
public:
    void cut() { delete m_branch; }
    void guards() { Guard guard(m_leaf); }
    void sinks(std::unique_ptr<Leaf> given) { Q_UNUSED(given) }
    void passesOn(std::unique_ptr<Leaf> given) { m_kept = std::move(given); }
    void hands() { sinks(std::make_unique<Leaf>()); }
    void later() { m_branch->deleteLater(); }
private:
    Branch *m_branch = new Branch;
    Leaf *m_leaf = new Leaf;
    std::unique_ptr<Leaf> m_kept;
};

class Closing : public QWidget {
    Q_OBJECT
public:
    Closing() { setAttribute(Qt::WA_DeleteOnClose); }
    ~Closing() override { emit leaving(); }
    void shut() { close(); }
signals:
    void leaving();
};

class Staying : public QWidget {
    Q_OBJECT
public:
    ~Staying() override { emit leaving(); }
    void shut() { close(); }
signals:
    void leaving();
};

class Frame : public QWidget {
    Q_OBJECT
public:
    Frame() { m_area->setWidget(m_label); }
    void drop() { delete m_area->takeWidget(); }
private:
    QScrollArea *m_area = new QScrollArea(this);
    QLabel *m_label = new QLabel;
};

class Ring : public QObject {
    Q_OBJECT
public:
    Ring() {
        connect(m_leaf, &Leaf::falling, this, &Ring::next);
        connect(this, &Ring::turned, this, &Ring::turn, Qt::QueuedConnection);
    }
    void next() { m_leaf->deleteLater(); }
    void turn() { emit turned(); }
signals:
    void turned();
private:
    Leaf *m_leaf = new Leaf;
};

class Album : public QWidget {
    Q_OBJECT
public:
    Album() { m_pages->setWidget(new Staying); }
    void turn() { m_pages->setWidget(new Staying); }
private:
    QScrollArea *m_pages = new QScrollArea(this);
};
