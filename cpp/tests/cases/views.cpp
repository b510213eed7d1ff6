// Views, models and editors: what Qt connects between objects that are handed to one another, or that it makes itself.
#include <QtWidgets>

class Chooser : public QWidget {
    Q_OBJECT
public:
    Chooser(QAbstractItemModel *any) {
        m_box->setModel(m_model);
        m_sorted->setSourceModel(m_model);
        m_chosen->setSourceModel(m_sorted);
        m_open->setSourceModel(any);
        connect(m_box, &QComboBox::currentIndexChanged, this, &Chooser::choose);
        connect(m_free, &QComboBox::currentIndexChanged, this, &Chooser::choose);
        connect(m_chosen, &QSortFilterProxyModel::rowsInserted, this, &Chooser::choose);
    }
    void choose() { emit chosen(); }
signals:
    void chosen();
private:
    QStandardItemModel *m_model = new QStandardItemModel(this);
    QStandardItemModel *m_other = new QStandardItemModel(this);
    QComboBox *m_box = new QComboBox(this);
    QComboBox *m_free = new QComboBox(this);
    QSortFilterProxyModel *m_sorted = new QSortFilterProxyModel(this);
    QSortFilterProxyModel *m_chosen = new QSortFilterProxyModel(this);
    QSortFilterProxyModel *m_open = new QSortFilterProxyModel(this);
};

class Editing : public QStyledItemDelegate {
    Q_OBJECT
public:
    QWidget *createEditor(QWidget *parent, const QStyleOptionViewItem &, const QModelIndex &) const override {
        auto *line = new QLineEdit(parent);
        connect(line, &QLineEdit::editingFinished, this, &Editing::finish);
        return line;
    }
    void finish() { emit finished(); }
signals:
    void finished();
};

class Grid : public QTableView {
    Q_OBJECT
public:
    Grid() {
        setItemDelegate(new Editing);
        connect(m_search, &QLineEdit::editingFinished, this, &Grid::search);
    }
    void first() { setCurrentIndex(QModelIndex()); }
    void select() { selectionModel()->setCurrentIndex(QModelIndex(), QItemSelectionModel::Select); }
    void currentChanged(const QModelIndex &, const QModelIndex &) override { emit moved(); }
    void search() { emit moved(); }
signals:
    void moved();
private:
    QLineEdit *m_search = new QLineEdit(this);
};

class Days : public QWidget {
    Q_OBJECT
public:
    void turn() { m_days->showToday(); }
private:
    QCalendarWidget *m_days = new QCalendarWidget(this);
};

class Typed : public QWidget {
    Q_OBJECT
public:
    Typed() {
        connect(m_button, &QPushButton::clicked, m_box, &QComboBox::clearEditText);
        connect(m_box->lineEdit(), &QLineEdit::textChanged, this, &Typed::take);
        connect(m_other->lineEdit(), &QLineEdit::textChanged, this, &Typed::take);
        m_third->setLineEdit(m_line);
        connect(m_third->lineEdit(), &QLineEdit::textChanged, this, &Typed::take);
        connect(m_box, &QComboBox::editTextChanged, this, &Typed::take);
        connect(m_third, &QComboBox::editTextChanged, this, &Typed::take);
    }
    void take() { emit taken(); }
    void forget() { m_other->clear(); }
    void fill() { m_third->clear(); }
signals:
    void taken();
private:
    QPushButton *m_button = new QPushButton(this);
    QComboBox *m_box = new QComboBox(this);
    QComboBox *m_other = new QComboBox(this);
    QComboBox *m_third = new QComboBox(this);
    QLineEdit *m_line = new QLineEdit;
};
