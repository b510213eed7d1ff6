// Views, each with a selection of its own, which Qt makes.
#include <QtWidgets>

class Tree : public QTreeView {
    Q_OBJECT
public:
    Tree() { connect(selectionModel(), &QItemSelectionModel::selectionChanged, this, &Tree::tell); }
    void tell() { emit told(); }
signals:
    void told();
};

class Cells : public QWidget {
    Q_OBJECT
public:
    Cells() {
        connect(m_chosen, &QTableWidget::itemSelectionChanged, this, &Cells::choose);
        connect(m_other, &QTableWidget::itemSelectionChanged, this, &Cells::choose);
    }
    void forget() { m_chosen->selectionModel()->clear(); }
    void choose() { emit chosen(); }
signals:
    void chosen();
private:
    QTableWidget *m_chosen = new QTableWidget(this);
    QTableWidget *m_other = new QTableWidget(this);
};

class Twins : public QWidget {
    Q_OBJECT
public:
    Twins() {
        m_one->setModel(m_files);
        m_two->setModel(m_files);
        m_two->setSelectionModel(m_one->selectionModel());
        m_two->setSelectionModel(m_two->selectionModel());
        m_three->setModel(m_files);
        m_three->setSelectionModel(m_own);
        connect(m_one->selectionModel(), &QItemSelectionModel::selectionChanged, this, &Twins::move);
        connect(m_own, &QItemSelectionModel::selectionChanged, this, &Twins::move);
    }
    void goTwo() { m_two->setCurrentIndex(QModelIndex()); }
    void goThree() { m_three->setCurrentIndex(QModelIndex()); }
    void move() { emit moved(); }
signals:
    void moved();
private:
    QTreeView *m_one = new QTreeView(this);
    QTreeView *m_two = new QTreeView(this);
    QTreeView *m_three = new QTreeView(this);
    QStandardItemModel *m_files = new QStandardItemModel(this);
    QItemSelectionModel *m_own = new QItemSelectionModel(m_files, this);
};

class Panes : public QWidget {
    Q_OBJECT
public:
    explicit Panes(QTreeView *any) : m_any(any) {
        m_left->setModel(m_tasks);
        m_right->setModel(m_feeds);
        m_tree->setModel(m_notes);
        connect(m_left->selectionModel(), &QItemSelectionModel::selectionChanged, this, &Panes::left);
        connect(m_right->selectionModel(), &QItemSelectionModel::selectionChanged, this, &Panes::right);
    }
    void shrink() { m_tasks->removeRow(0); }
    void goLeft() { m_left->setCurrentIndex(QModelIndex()); }
    void goAnywhere() { m_any->setCurrentIndex(QModelIndex()); }
    void left() { emit leftMoved(); }
    void right() { emit rightMoved(); }
signals:
    void leftMoved();
    void rightMoved();
private:
    QTreeView *m_any;
    QTreeView *m_left = new QTreeView(this);
    QTreeView *m_right = new QTreeView(this);
    Tree *m_tree = new Tree;
    QStandardItemModel *m_tasks = new QStandardItemModel(this);
    QStandardItemModel *m_feeds = new QStandardItemModel(this);
    QStandardItemModel *m_notes = new QStandardItemModel(this);
};

class Rating : public QStyledItemDelegate {
    Q_OBJECT
public:
    void setModelData(QWidget *, QAbstractItemModel *, const QModelIndex &) const override { emit rated(); }
signals:
    void rated() const;
};

class Shelves : public QWidget {
    Q_OBJECT
public:
    Shelves()
    {
        m_rated->setItemDelegate(m_rating);
        connect(m_rated->selectionModel(), &QItemSelectionModel::currentChanged, this, &Shelves::move);
        connect(m_plain->selectionModel(), &QItemSelectionModel::currentChanged, this, &Shelves::move);
    }
    void goRated() { m_rated->selectAll(); }
    void goPlain() { m_plain->selectAll(); }
    void goList() { m_list->selectAll(); }
    void move() { emit moved(); }
signals:
    void moved();
private:
    Rating *m_rating = new Rating;
    QTreeView *m_rated = new QTreeView(this);
    QTreeView *m_plain = new QTreeView(this);
    QListWidget *m_list = new QListWidget(this);
};
