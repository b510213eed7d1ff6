// Set-ups of models, selections, views and their items.
#include "registry.h"

namespace {

class Table : public QAbstractTableModel
{
public:
    int rowCount(const QModelIndex &above = {}) const override { return above.isValid() ? 0 : m_rows; }
    int columnCount(const QModelIndex &above = {}) const override { return above.isValid() ? 0 : 2; }
    QVariant data(const QModelIndex &at, int role) const override
    {
        return role == Qt::DisplayRole || role == Qt::EditRole ? QVariant(at.row() * 10 + at.column()) : QVariant();
    }
    bool insertRows(int at, int count, const QModelIndex &above) override
    {
        recorder::called("insertRows");
        beginInsertRows(above, at, at + count - 1);
        m_rows += count;
        endInsertRows();
        return true;
    }
    bool removeRows(int at, int count, const QModelIndex &above) override
    {
        recorder::called("removeRows");
        beginRemoveRows(above, at, at + count - 1);
        m_rows -= count;
        endRemoveRows();
        return true;
    }
    bool insertColumns(int, int, const QModelIndex &) override { recorder::called("insertColumns"); return false; }
    bool removeColumns(int, int, const QModelIndex &) override { recorder::called("removeColumns"); return false; }
    bool moveRows(const QModelIndex &, int, int, const QModelIndex &, int) override { recorder::called("moveRows"); return false; }
    bool moveColumns(const QModelIndex &, int, int, const QModelIndex &, int) override
    {
        recorder::called("moveColumns");
        return false;
    }
    bool setData(const QModelIndex &, const QVariant &, int) override { recorder::called("setData"); return false; }
    // What only those below may call is public here.
    using QAbstractItemModel::beginInsertRows;
    using QAbstractItemModel::endInsertRows;

private:
    int m_rows = 3;
};

template <class T> T *view(Scene &s)
{
    auto *it = new T;
    it->setModel(s.filledModel());
    s.other(it->selectionModel());
    it->setCurrentIndex(s.model->index(0, 0));
    return it;
}

// Its own model, whose values an editor of a view sets.
class Edited : public QStandardItemModel
{
public:
    using QStandardItemModel::QStandardItemModel;
    bool setData(const QModelIndex &, const QVariant &, int) override
    {
        recorder::calledOf("QAbstractItemModel", "setData");
        return true;
    }
};

// A view of which it is seen what Qt connects to its functions, and its delegate.
class Told : public QTableView
{
public:
    void currentChanged(const QModelIndex &at, const QModelIndex &before) override
    {
        called("currentChanged");
        QTableView::currentChanged(at, before);
    }
    void selectionChanged(const QItemSelection &chosen, const QItemSelection &left) override
    {
        called("selectionChanged");
        QTableView::selectionChanged(chosen, left);
    }
    void dataChanged(const QModelIndex &first, const QModelIndex &last, const QList<int> &roles) override
    {
        called("dataChanged");
        QTableView::dataChanged(first, last, roles);
    }
    void rowsInserted(const QModelIndex &above, int first, int last) override
    {
        called("rowsInserted");
        QTableView::rowsInserted(above, first, last);
    }
    void rowsAboutToBeRemoved(const QModelIndex &above, int first, int last) override
    {
        called("rowsAboutToBeRemoved");
        QTableView::rowsAboutToBeRemoved(above, first, last);
    }
    void reset() override
    {
        called("reset");
        QTableView::reset();
    }
    void commitData(QWidget *editor) override
    {
        called("commitData");
        QTableView::commitData(editor);
    }
    void closeEditor(QWidget *editor, QAbstractItemDelegate::EndEditHint hint) override
    {
        called("closeEditor");
        QTableView::closeEditor(editor, hint);
    }

private:
    static void called(const char *name) { recorder::calledOf("QAbstractItemView", name); }
};

class Editor : public QLineEdit
{
public:
    using QLineEdit::QLineEdit;
    void focusOutEvent(QFocusEvent *event) override
    {
        recorder::calledOf("editor", "focusOutEvent");
        QLineEdit::focusOutEvent(event);
    }
};

class ToldDelegate : public QStyledItemDelegate
{
public:
    QWidget *createEditor(QWidget *parent, const QStyleOptionViewItem &, const QModelIndex &) const override { return new Editor(parent); }
    void setModelData(QWidget *editor, QAbstractItemModel *model, const QModelIndex &at) const override
    {
        recorder::calledOf("QAbstractItemDelegate", "setModelData");
        QStyledItemDelegate::setModelData(editor, model, at);
    }
    void destroyEditor(QWidget *editor, const QModelIndex &at) const override
    {
        recorder::calledOf("QAbstractItemDelegate", "destroyEditor");
        QStyledItemDelegate::destroyEditor(editor, at);
    }
};

QTableView *edited(Scene &s)
{
    auto *it = new Told;
    it->setItemDelegate(s.other(new ToldDelegate));
    s.model = s.other(new Edited(3, 2));
    it->setModel(s.model);
    s.other(it->selectionModel());
    it->setCurrentIndex(s.model->index(0, 0));
    it->show();
    it->edit(s.model->index(0, 0));
    return it;
}

// Items of which it is told that Qt sets their values.
template <class T> class Set : public T
{
public:
    using T::T;
    void setData(int role, const QVariant &value) override { recorder::called("setData"); T::setData(role, value); }
};

class SetTreeItem : public QTreeWidgetItem
{
public:
    using QTreeWidgetItem::QTreeWidgetItem;
    void setData(int column, int role, const QVariant &value) override
    {
        recorder::called("setData");
        recorder::calledOf("QTreeWidgetItem", "setData");
        QTreeWidgetItem::setData(column, role, value);
    }
};

// The item of a header, which is never the object itself.
class HeaderItem : public QTreeWidgetItem
{
public:
    void setData(int column, int role, const QVariant &value) override
    {
        recorder::calledOf("QTreeWidgetItem", "setData");
        QTreeWidgetItem::setData(column, role, value);
    }
};

// The object itself.
class SetStandardItem : public QStandardItem
{
public:
    void setData(const QVariant &value, int role) override
    {
        recorder::called("setData");
        QStandardItem::setData(value, role);
    }
};

// What a model clones.
class ClonedItem : public QStandardItem
{
public:
    QStandardItem *clone() const override { recorder::calledOf("QStandardItem", "clone"); return new ClonedItem; }
    void setData(const QVariant &value, int role) override
    {
        recorder::calledOf("QStandardItem", "setData");
        QStandardItem::setData(value, role);
    }
};

class SetTableItem : public QTableWidgetItem
{
public:
    using QTableWidgetItem::QTableWidgetItem;
    QTableWidgetItem *clone() const override { recorder::calledOf("QTableWidgetItem", "clone"); return new SetTableItem; }
    void setData(int role, const QVariant &value) override
    {
        recorder::calledOf("QTableWidgetItem", "setData");
        QTableWidgetItem::setData(role, value);
    }
};

QTableWidget *cloning()
{
    auto *it = new QTableWidget(2, 2);
    it->setItemPrototype(new SetTableItem);
    return it;
}

QStandardItemModel *cloningModel()
{
    auto *it = new QStandardItemModel(2, 2);
    it->setItemPrototype(new ClonedItem);
    return it;
}

QListWidget *list(Scene &s)
{
    auto *it = new QListWidget;
    it->addItems({"one", "two", "three"});
    it->setCurrentRow(0);
    s.item(it->item(1));
    s.model = it->model();
    return it;
}

QTableWidget *table(Scene &s)
{
    auto *it = new QTableWidget(3, 2);
    for (int row = 0; row < 3; ++row)
        it->setItem(row, 0, new QTableWidgetItem(QString("cell %1").arg(3 - row)));
    it->setCurrentCell(0, 0);
    s.item(it->item(1, 0));
    s.model = it->model();
    return it;
}

QTreeWidget *tree(Scene &s)
{
    auto *it = new QTreeWidget;
    it->setColumnCount(2);
    for (const char *name : {"b", "a", "c"})
        new QTreeWidgetItem(new QTreeWidgetItem(it, {name, "x"}), {"child"});
    it->setCurrentItem(it->topLevelItem(0));
    s.item(it->topLevelItem(1));
    s.model = it->model();
    return it;
}

void setUpItems()
{
    SET_UP(QListWidget, "three items", return list(s);)
    SET_UP(QListWidget, "many chosen", auto *it = list(s); it->setSelectionMode(QAbstractItemView::MultiSelection);
           it->selectAll(); return it;)
    SET_UP(QListWidgetItem, "of a list", auto *it = s.other(list(s)); return it->item(1);)
    SET_UP(QListWidgetItem, "the current one", auto *it = s.other(list(s)); return it->item(0);)
    SET_UP(QTableWidget, "a column filled", return table(s);)
    SET_UP(QTableWidgetItem, "of a table", auto *it = s.other(table(s)); return it->item(1, 0);)
    SET_UP(QTreeWidget, "three items", return tree(s);)
    SET_UP(QTreeWidget, "expanded", auto *it = tree(s); it->expandAll(); it->setCurrentItem(it->topLevelItem(1)->child(0)); return it;)
    SET_UP(QTreeWidgetItem, "of a tree", auto *it = s.other(tree(s)); return it->topLevelItem(1);)
    SET_UP(QTreeWidgetItem, "the current one, expanded", auto *it = s.other(tree(s)); it->expandAll(); return it->topLevelItem(0);)
    SET_UP(QListWidgetItem, "that tells", auto *it = s.other(list(s)); return static_cast<QListWidgetItem *>(new Set<QListWidgetItem>(it));)
    SET_UP(QTableWidgetItem, "that tells", auto *it = s.other(table(s)); auto *item = new Set<QTableWidgetItem>; it->setItem(0, 1, item);
           return static_cast<QTableWidgetItem *>(item);)
    SET_UP(QTreeWidgetItem, "that tells", auto *it = s.other(tree(s)); auto *item = new SetTreeItem(it);
           item->setFlags(item->flags() | Qt::ItemIsAutoTristate); (new SetTreeItem(item))->setCheckState(0, Qt::Unchecked);
           return static_cast<QTreeWidgetItem *>(item);)
    SET_UP(QTreeWidget, "whose header tells", auto *it = tree(s); it->setHeaderItem(new HeaderItem); return it;)
    SET_UP(QTableWidget, "that clones", return cloning();)
    SET_UP(QStandardItemModel, "that clones", return cloningModel();)
    SET_UP(QStandardItem, "that tells", auto *it = s.filledModel(); auto *item = new SetStandardItem; it->appendRow(item);
           return static_cast<QStandardItem *>(item);)
    SET_UP(QItemSelectionModel, "of a table with an open editor", auto *it = s.other(table(s)); auto *item = new SetTableItem;
           it->setItem(0, 0, item); it->show(); it->editItem(item); return it->selectionModel();)
    SET_UP(QStandardItem, "of a model", auto *it = s.filledModel(); return it->item(1, 0);)
    SET_UP(QStandardItem, "in a header", auto *it = s.filledModel(); it->setHorizontalHeaderItem(0, new QStandardItem("head"));
           return it->horizontalHeaderItem(0);)
    SET_UP(QStandardItem, "checkable", auto *it = s.filledModel(); it->item(0, 0)->setCheckable(true);
           it->item(0, 0)->setAutoTristate(true); it->item(0, 0)->child(0)->setCheckable(true); return it->item(0, 0)->child(0);)
}

}  // namespace

void setUpModels()
{
    SET_UP(QAbstractTableModel, "of its own", auto *it = new Table; s.model = it; return it;)
    SET_UP(QStandardItemModel, "filled", auto *it = s.filledModel(); return it;)
    SET_UP(QStandardItemModel, "shown by a view", auto *it = s.filledModel(); auto *shown = s.other(new QTreeView);
           shown->setModel(it); s.other(shown->selectionModel()); shown->setCurrentIndex(it->index(0, 0)); return it;)
    SET_UP(QStandardItemModel, "shown by a view that tells", auto *it = s.filledModel(); auto *shown = s.other(new Told);
           shown->setModel(it); s.other(shown->selectionModel()); return it;)
    SET_UP(QStandardItemModel, "shown by a box", auto *it = s.filledModel(); s.other(new QComboBox)->setModel(it); return it;)
    SET_UP(QStandardItemModel, "empty, shown by a box", auto *it = new QStandardItemModel; s.other(new QComboBox)->setModel(it); return it;)
    SET_UP(QStandardItemModel, "below a sorted proxy", auto *it = s.filledModel(); auto *above = s.other(new QSortFilterProxyModel);
           above->setSourceModel(it); above->setFilterFixedString("row"); above->sort(0); return it;)
    SET_UP(QStandardItemModel, "below a proxy that hides it", auto *it = s.filledModel(); auto *above = s.other(new QSortFilterProxyModel);
           above->setSourceModel(it); above->setFilterRegularExpression("^(?!row)"); return it;)
    SET_UP(QStandardItemModel, "below a plain proxy", auto *it = s.filledModel(); s.other(new QIdentityProxyModel)->setSourceModel(it); return it;)
    SET_UP(QStandardItemModel, "below a transposed proxy", auto *it = s.filledModel(); s.other(new QTransposeProxyModel)->setSourceModel(it); return it;)
    SET_UP(QStringListModel, "three rows", auto *it = new QStringListModel({"c", "a", "b"}); s.model = it; return it;)
    SET_UP(QFileSystemModel, "plain", return new QFileSystemModel;)
    SET_UP(QItemSelectionModel, "a row chosen", auto *it = new QItemSelectionModel(s.filledModel());
           it->setCurrentIndex(s.model->index(0, 0), QItemSelectionModel::ClearAndSelect | QItemSelectionModel::Rows); return it;)
    SET_UP(QItemSelectionModel, "of a view", auto *it = s.other(view<QTreeView>(s)); return it->selectionModel();)
    SET_UP(QItemSelectionModel, "of a view with an open editor", auto *it = s.other(edited(s)); return it->selectionModel();)
    SET_UP(QListView, "filled", return view<QListView>(s);)
    SET_UP(QTableView, "filled", return view<QTableView>(s);)
    SET_UP(QTreeView, "filled", return view<QTreeView>(s);)
    SET_UP(QTreeView, "expanded", auto *it = view<QTreeView>(s); it->expandAll(); return it;)
    SET_UP(QTreeView, "empty", return new QTreeView;)
    SET_UP(QColumnView, "filled", return view<QColumnView>(s);)
    SET_UP(QUndoView, "plain", return new QUndoView(s.other(new QUndoStack));)
    SET_UP(QHeaderView, "of a table", auto *it = s.other(view<QTableView>(s)); it->setSortingEnabled(true); return it->horizontalHeader();)
    SET_UP(QHeaderView, "of a tree", auto *it = s.other(view<QTreeView>(s)); it->header()->setSectionsClickable(true); return it->header();)
    SET_UP(QStyledItemDelegate, "plain", return new QStyledItemDelegate;)
    SET_UP(QDataWidgetMapper, "three rows", auto *it = new QDataWidgetMapper; it->setModel(s.filledModel());
           it->addMapping(s.sibling, 0); it->toFirst(); return it;)
    setUpItems();
}
