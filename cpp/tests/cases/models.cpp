// Items of models, and the models of lists, tables and trees of items: the one that has an item tells of it.
#include <QtWidgets>

class Torrents : public QAbstractListModel {
    Q_OBJECT
public:
    int rowCount(const QModelIndex &) const override { return 0; }
    QVariant data(const QModelIndex &, int) const override { return {}; }
};

class Files : public QStandardItemModel {
    Q_OBJECT
public:
    void mark() { invisibleRootItem()->setText("1"); }
};

class Notes : public QListWidget {
    Q_OBJECT
protected:
    void dataChanged(const QModelIndex &, const QModelIndex &, const QList<int> &) override { emit noted(); }
signals:
    void noted();
};

class Window : public QWidget {
    Q_OBJECT
public:
    Window() {
        m_first->appendRow(m_name);
        m_name->appendRow(m_part);
        m_second->appendRow({m_size, m_age});
        m_proxy->setSourceModel(m_rows->model());
        m_notes->addItem(new QListWidgetItem);
        connect(m_first, &QStandardItemModel::itemChanged, this, &Window::look);
        connect(m_second, &QStandardItemModel::itemChanged, this, &Window::look);
        connect(m_files, &QStandardItemModel::itemChanged, this, &Window::look);
        connect(m_torrents, &QAbstractItemModel::dataChanged, this, &Window::look);
        connect(m_proxy, &QAbstractItemModel::dataChanged, this, &Window::look);
        connect(m_list->model(), &QAbstractItemModel::dataChanged, this, &Window::look);
        connect(m_notes, &Notes::noted, this, &Window::look);
    }
    void rename() { m_name->setText("1"); }
    void divide() { m_part->setText("2"); }
    void grow() { m_size->setText("3"); }
    void first() { m_first->item(0)->child(0)->setText("4"); }
    void lost() { (new QStandardItem)->setText("5"); }
    void write() { m_second->setData(QModelIndex(), 6); }
    void list() { m_list->item(0)->setText("7"); }
    void row() { m_rows->item(0)->setText("8"); }
    void note() { m_notes->item(0)->setText("9"); }
    void plug() { m_tree->topLevelItem(0)->setText(0, "10"); emit looked(); }
    void look() { emit looked(); }
signals:
    void looked();
private:
    Torrents *m_torrents = new Torrents;
    Files *m_files = new Files;
    QStandardItemModel *m_first = new QStandardItemModel(this);
    QStandardItemModel *m_second = new QStandardItemModel(this);
    QSortFilterProxyModel *m_proxy = new QSortFilterProxyModel(this);
    QStandardItem *m_name = new QStandardItem;
    QStandardItem *m_part = new QStandardItem;
    QStandardItem *m_size = new QStandardItem;
    QStandardItem *m_age = new QStandardItem;
    QListWidget *m_list = new QListWidget(this);
    QListWidget *m_rows = new QListWidget(this);
    Notes *m_notes = new Notes;
    QTreeWidget *m_tree = new QTreeWidget(this);
};
