// Who owns whom by what Qt's functions do: `setParent`, and what a layout is given.
#include <QVBoxLayout>
#include <QWidget>

class Leaf : public QWidget {
    Q_OBJECT
public:
    ~Leaf() override { emit falling(); }
signals:
    void falling();
};

class Twig : public Leaf {
    Q_OBJECT
public:
    explicit Twig(QWidget *above) { setParent(above); }
};

class Crown : public QWidget {
    Q_OBJECT
public:
    Crown()
    {
        m_rows->addLayout(m_row);
        m_row->addWidget(m_laid);
        m_adopted->setParent(this);
        m_free->setParent(nullptr);
    }
    void flatten() { delete m_row; }

private:
    QVBoxLayout *m_rows = new QVBoxLayout(this);
    QHBoxLayout *m_row = new QHBoxLayout;
    Leaf *m_laid = new Leaf;
    Leaf *m_adopted = new Leaf;
    Leaf *m_free = new Leaf;
    Twig *m_twig = new Twig(this);
};

class Wood : public QObject {
    Q_OBJECT
public:
    Wood() { connect(m_leaf, &Leaf::falling, this, &Wood::elsewhere); }
    void elsewhere();    // its source isn't in the build
    void fell() { delete m_crown; }
    void flatten() { m_crown->flatten(); }
    void pick() { delete m_leaf; }

private:
    Crown *m_crown = new Crown;
    Leaf *m_leaf = new Leaf;
};
