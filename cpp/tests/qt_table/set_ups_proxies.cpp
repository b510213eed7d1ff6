// Set-ups of proxies over models.
#include "registry.h"

namespace {

class Proxy : public QSortFilterProxyModel
{
public:
    bool filterAcceptsRow(int row, const QModelIndex &above) const override
    {
        recorder::called("filterAcceptsRow");
        return QSortFilterProxyModel::filterAcceptsRow(row, above);
    }
    bool filterAcceptsColumn(int column, const QModelIndex &above) const override
    {
        recorder::called("filterAcceptsColumn");
        return QSortFilterProxyModel::filterAcceptsColumn(column, above);
    }
    bool lessThan(const QModelIndex &left, const QModelIndex &right) const override
    {
        recorder::called("lessThan");
        return QSortFilterProxyModel::lessThan(left, right);
    }
};

Proxy *proxy(Scene &s)
{
    auto *it = new Proxy;
    it->setDynamicSortFilter(true);
    it->setSourceModel(s.filledModel());
    it->sort(0);
    return it;
}

// A model below a proxy, of which it is seen which of its functions the proxy calls.
class Source : public QStandardItemModel
{
public:
    Source() : QStandardItemModel(3, 2) { }
    bool setData(const QModelIndex &at, const QVariant &value, int role) override { return seen("setData"), QStandardItemModel::setData(at, value, role); }
    bool setHeaderData(int section, Qt::Orientation way, const QVariant &value, int role) override
    {
        return seen("setHeaderData"), QStandardItemModel::setHeaderData(section, way, value, role);
    }
    bool clearItemData(const QModelIndex &at) override { return seen("clearItemData"), QStandardItemModel::clearItemData(at); }
    bool insertRows(int at, int count, const QModelIndex &above) override { return seen("insertRows"), QStandardItemModel::insertRows(at, count, above); }
    bool insertColumns(int at, int count, const QModelIndex &above) override { return seen("insertColumns"), QStandardItemModel::insertColumns(at, count, above); }
    bool removeRows(int at, int count, const QModelIndex &above) override { return seen("removeRows"), QStandardItemModel::removeRows(at, count, above); }
    bool removeColumns(int at, int count, const QModelIndex &above) override { return seen("removeColumns"), QStandardItemModel::removeColumns(at, count, above); }
    bool dropMimeData(const QMimeData *data, Qt::DropAction action, int row, int column, const QModelIndex &above) override
    {
        return seen("dropMimeData"), QStandardItemModel::dropMimeData(data, action, row, column, above);
    }
    void fetchMore(const QModelIndex &above) override { seen("fetchMore"), QStandardItemModel::fetchMore(above); }
    void sort(int column, Qt::SortOrder order) override { seen("sort"), QStandardItemModel::sort(column, order); }
    bool submit() override { return seen("submit"), QStandardItemModel::submit(); }
    void revert() override { seen("revert"), QStandardItemModel::revert(); }

private:
    static void seen(const char *name) { recorder::calledOf("source", name); }
};

template <class T> T *over(Scene &s)
{
    auto *it = new T;
    it->setSourceModel(s.other(new Source));
    return it;
}

}

void setUpProxies()
{
    SET_UP(QSortFilterProxyModel, "filtered", auto *it = proxy(s); it->setFilterFixedString("row"); s.model = it; return it;)
    SET_UP(QSortFilterProxyModel, "of all", auto *it = proxy(s); s.model = it; return it;)
    SET_UP(QSortFilterProxyModel, "of columns", auto *it = proxy(s); it->setFilterKeyColumn(-1); it->setFilterFixedString("1"); return it;)
    SET_UP(QIdentityProxyModel, "plain", auto *it = new QIdentityProxyModel; it->setSourceModel(s.filledModel()); return it;)
    SET_UP(QTransposeProxyModel, "plain", auto *it = new QTransposeProxyModel; it->setSourceModel(s.filledModel()); return it;)
    SET_UP(QSortFilterProxyModel, "over a source that tells", return over<QSortFilterProxyModel>(s);)
    SET_UP(QIdentityProxyModel, "over a source that tells", return over<QIdentityProxyModel>(s);)
    SET_UP(QTransposeProxyModel, "over a source that tells", return over<QTransposeProxyModel>(s);)
    SET_UP(QConcatenateTablesProxyModel, "over a source that tells", auto *it = new QConcatenateTablesProxyModel;
           it->addSourceModel(s.other(new Source)); return it;)
    SET_UP(QConcatenateTablesProxyModel, "plain", auto *it = new QConcatenateTablesProxyModel; it->addSourceModel(s.filledModel()); return it;)
}
