// Items that are no QObjects, whose virtual functions Qt calls; and actions that Qt connects to what made them.
#include <QtWidgets>

class Sheet;

class Cell : public QTableWidgetItem {
public:
    explicit Cell(Sheet *sheet) : m_sheet(sheet) {}
    void setData(int role, const QVariant &value) override;
private:
    Sheet *m_sheet;
};

class Stroke : public QUndoCommand {
public:
    explicit Stroke(Sheet *sheet) : m_sheet(sheet) {}
    void undo() override;
private:
    Sheet *m_sheet;
};

class Rows : public QAbstractListModel {
    Q_OBJECT
public:
    int rowCount(const QModelIndex &) const override { return 0; }
    QVariant data(const QModelIndex &, int) const override { return {}; }
    void fill() { QAbstractListModel::setData(QModelIndex(), 1); }
};

class Sheet : public QWidget {
    Q_OBJECT
public:
    Sheet() {
        m_table->setItem(0, 0, new Cell(this));
        m_undo = m_stack->createUndoAction(this);
        connect(m_table, &QTableWidget::itemChanged, this, &Sheet::read);
        connect(m_other, &QTableWidget::itemChanged, this, &Sheet::look);
        connect(m_undo, &QAction::enabledChanged, this, &Sheet::look);
        connect(m_first, &QAction::triggered, this, &Sheet::look);
        connect(m_stack, &QUndoStack::indexChanged, this, &Sheet::look);
        m_stack->push(new Stroke(this));
    }
    void write() { m_table->item(0, 0)->setText("1"); }
    void name() { m_list->item(0)->setText("1"); }
    void commit(QAbstractItemModel *model) { model->setData(QModelIndex(), 1); }
    void rename() { m_list->setCurrentRow(0); }
    void choose() { m_table->setCurrentCell(0, 0); }
    void shift() { m_view->setCurrentIndex(QModelIndex()); }
    void drop() { delete m_stack; }
    void end() { delete this; }
    void read() { emit written(); }
    void look() { emit looked(); }
signals:
    void written();
    void looked();
private:
    QTableWidget *m_table = new QTableWidget(this);
    QTableWidget *m_other = new QTableWidget(this);
    QListWidget *m_list = new QListWidget(this);
    QTreeView *m_view = new QTreeView(this);
    Rows *m_rows = new Rows;
    QUndoStack *m_stack = new QUndoStack(this);
    QAction *m_undo;
    QAction *m_first = new QAction(this);
};

class Rules : public QWidget {
    Q_OBJECT
public:
    Rules() {
        connect(m_rules, &QListWidget::itemChanged, this, &Rules::check);
        connect(m_feeds, &QListWidget::itemChanged, this, &Rules::feed);
    }
    void add(const QString &name) { m_items.insert(name, new QListWidgetItem(name, m_rules)); }
    void rename(const QString &name) { m_items.value(name)->setText("1"); }
    void check(QListWidgetItem *) { emit checked(); }
    void feed(QListWidgetItem *item) { item->setText("2"); }
    void grow() {
        auto *one = new QTreeWidgetItem(m_tree);
        auto *other = new QTreeWidgetItem;
        one->addChild(other);
        other->setText(0, "3");
    }
    void move() {
        auto *moved = new QTableWidgetItem;
        m_table->setItem(0, 0, moved);
        m_desk->setItem(0, 0, m_table->takeItem(0, 0));
        moved->setText("4");
    }
    void mute() {
        const QSignalBlocker blocker(m_rules);
        QListWidgetItem *item = m_rules->item(0), *other = m_feeds->item(0);
        item->setText("5");
        other->setText("6");
    }
signals:
    void checked();
private:
    QListWidget *m_rules = new QListWidget(this);
    QListWidget *m_feeds = new QListWidget(this);
    QTreeWidget *m_tree = new QTreeWidget(this);
    QTreeWidget *m_forest = new QTreeWidget(this);
    QTableWidget *m_table = new QTableWidget(this);
    QTableWidget *m_desk = new QTableWidget(this);
    QHash<QString, QListWidgetItem *> m_items;
};

void Cell::setData(int role, const QVariant &value)
{
    QTableWidgetItem::setData(role, value);
    m_sheet->read();
}

void Stroke::undo()
{
    m_sheet->look();
}
