// Models of which it is seen what their functions call of their own, and calls of what only those below a model may call.
#include "registry.h"

namespace {

template <class T> class Told : public T
{
public:
    using T::T;
    bool insertRows(int at, int count, const QModelIndex &above = {}) override
    {
        recorder::called("insertRows");
        return T::insertRows(at, count, above);
    }
    bool insertColumns(int at, int count, const QModelIndex &above = {}) override
    {
        recorder::called("insertColumns");
        return T::insertColumns(at, count, above);
    }
    bool removeRows(int at, int count, const QModelIndex &above = {}) override
    {
        recorder::called("removeRows");
        return T::removeRows(at, count, above);
    }
    bool removeColumns(int at, int count, const QModelIndex &above = {}) override
    {
        recorder::called("removeColumns");
        return T::removeColumns(at, count, above);
    }
    bool moveRows(const QModelIndex &above, int at, int count, const QModelIndex &to, int child) override
    {
        recorder::called("moveRows");
        return T::moveRows(above, at, count, to, child);
    }
    bool setData(const QModelIndex &at, const QVariant &value, int role = Qt::EditRole) override
    {
        recorder::called("setData");
        return T::setData(at, value, role);
    }
};

class Filter : public Told<QSortFilterProxyModel>
{
public:
    bool filterAcceptsRow(int row, const QModelIndex &above) const override
    {
        recorder::called("filterAcceptsRow");
        return (row != hidden || all) && QSortFilterProxyModel::filterAcceptsRow(row, above);
    }
    bool filterAcceptsColumn(int column, const QModelIndex &above) const override
    {
        recorder::called("filterAcceptsColumn");
        return (column != hidden || all) && QSortFilterProxyModel::filterAcceptsColumn(column, above);
    }
    bool lessThan(const QModelIndex &left, const QModelIndex &right) const override
    {
        recorder::called("lessThan");
        return QSortFilterProxyModel::lessThan(left, right);
    }
    // What only those below may call is public here.
    using QSortFilterProxyModel::invalidateColumnsFilter;
    using QSortFilterProxyModel::invalidateFilter;
    using QSortFilterProxyModel::invalidateRowsFilter;
    bool all = false;

private:
    static constexpr int hidden = 1;
};

class Open : public QAbstractTableModel
{
public:
    int rowCount(const QModelIndex &above = {}) const override { return above.isValid() ? 0 : 4; }
    int columnCount(const QModelIndex &above = {}) const override { return above.isValid() ? 0 : 4; }
    QVariant data(const QModelIndex &, int) const override { return {}; }
    using QAbstractTableModel::beginInsertColumns;
    using QAbstractTableModel::beginInsertRows;
    using QAbstractTableModel::beginMoveColumns;
    using QAbstractTableModel::beginMoveRows;
    using QAbstractTableModel::beginRemoveColumns;
    using QAbstractTableModel::beginRemoveRows;
    using QAbstractTableModel::beginResetModel;
    using QAbstractTableModel::endInsertColumns;
    using QAbstractTableModel::endInsertRows;
    using QAbstractTableModel::endMoveColumns;
    using QAbstractTableModel::endMoveRows;
    using QAbstractTableModel::endRemoveColumns;
    using QAbstractTableModel::endRemoveRows;
    using QAbstractTableModel::endResetModel;
};

// Both halves of a change are called, and one of them is looked at.
template <class Begin, class End> void halves(const char *begins, const char *ends, Begin, End)
{
    call<Open>("QAbstractItemModel", begins, 9, [](Open &it, Scene &) {
        Begin{}(it);
        recorder::Pause quiet;
        End{}(it);
    });
    call<Open>("QAbstractItemModel", ends, 9, [](Open &it, Scene &) {
        {
            recorder::Pause quiet;
            Begin{}(it);
        }
        End{}(it);
    });
}

#define HALVES(begins, ends, ...) \
    struct begins##_ { void operator()(Open &it) const { it.begins(__VA_ARGS__); } }; \
    struct ends##_ { void operator()(Open &it) const { it.ends(); } }; \
    halves(#begins, #ends, begins##_{}, ends##_{});

void callHalves()
{
    HALVES(beginInsertRows, endInsertRows, {}, 0, 0)
    HALVES(beginInsertColumns, endInsertColumns, {}, 0, 0)
    HALVES(beginRemoveRows, endRemoveRows, {}, 0, 0)
    HALVES(beginRemoveColumns, endRemoveColumns, {}, 0, 0)
    HALVES(beginMoveRows, endMoveRows, {}, 0, 0, {}, 3)
    HALVES(beginMoveColumns, endMoveColumns, {}, 0, 0, {}, 3)
    HALVES(beginResetModel, endResetModel, )
}

// What a proxy model hides it finds out when somebody asks how long it is.
void mapped(Filter &it)
{
    recorder::Pause quiet;
    it.rowCount();
    it.columnCount();
}

// Hides nothing.
void opened(Filter &it)
{
    recorder::Pause quiet;
    mapped(it);
    it.all = true;
    it.invalidateFilter();
}

void callFilters()
{
    call<Filter>("QSortFilterProxyModel", "invalidate", 9, [](Filter &it, Scene &) { mapped(it); it.invalidate(); it.rowCount(); });
    call<Filter>("QSortFilterProxyModel", "invalidateFilter", 9, [](Filter &it, Scene &) { mapped(it); it.all = true; it.invalidateFilter(); });
    call<Filter>("QSortFilterProxyModel", "invalidateFilter", 8, [](Filter &it, Scene &) {
        opened(it);
        it.all = false;
        it.invalidateFilter();
    });
    call<Filter>("QSortFilterProxyModel", "invalidateRowsFilter", 9, [](Filter &it, Scene &) { mapped(it); it.all = true; it.invalidateRowsFilter(); });
    call<Filter>("QSortFilterProxyModel", "invalidateRowsFilter", 8, [](Filter &it, Scene &) {
        opened(it);
        it.all = false;
        it.invalidateRowsFilter();
    });
    call<Filter>("QSortFilterProxyModel", "invalidateColumnsFilter", 9, [](Filter &it, Scene &) { mapped(it); it.all = true; it.invalidateColumnsFilter(); });
    call<Filter>("QSortFilterProxyModel", "invalidateColumnsFilter", 8, [](Filter &it, Scene &) {
        opened(it);
        it.all = false;
        it.invalidateColumnsFilter();
    });
    call<Filter>("QSortFilterProxyModel", "setFilterFixedString", 9, [](Filter &it, Scene &) { mapped(it); it.setFilterFixedString("row"); });
    call<Filter>("QSortFilterProxyModel", "setFilterWildcard", 9, [](Filter &it, Scene &) { mapped(it); it.setFilterWildcard("row*"); });
    call<Filter>("QSortFilterProxyModel", "setFilterRegularExpression", 9, [](Filter &it, Scene &) { mapped(it); it.setFilterRegularExpression("row"); });
}

template <class T> T *over(Scene &s)
{
    auto *it = new Told<T>;
    it->setSourceModel(s.filledModel());
    return it;
}

}  // namespace

void setUpTold()
{
    SET_UP(QAbstractTableModel, "that opens what is kept for those below", auto *it = new Open; s.model = it; return it;)
    SET_UP(QIdentityProxyModel, "whose functions are seen", return over<QIdentityProxyModel>(s);)
    SET_UP(QTransposeProxyModel, "whose functions are seen", return over<QTransposeProxyModel>(s);)
    SET_UP(QSortFilterProxyModel, "whose functions are seen", auto *it = new Filter; it->setSourceModel(s.filledModel()); it->sort(0); return it;)
    SET_UP(QConcatenateTablesProxyModel, "whose functions are seen", auto *it = new Told<QConcatenateTablesProxyModel>;
           it->addSourceModel(s.filledModel()); s.model = it; return it;)
    SET_UP(QStringListModel, "whose functions are seen", auto *it = new Told<QStringListModel>; it->setStringList({"c", "a", "b"}); s.model = it; return it;)
    SET_UP(QStandardItemModel, "whose functions are seen", auto *it = new Told<QStandardItemModel>; it->setRowCount(2); it->setColumnCount(2);
           s.model = it; return it;)
}

void registerTold()
{
    callHalves();
    callFilters();
}
