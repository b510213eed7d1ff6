// Proxies over models: what Qt does to the model of one it does to no other.
#include <QtCore>

class Rows : public QAbstractListModel {
    Q_OBJECT
public:
    int rowCount(const QModelIndex &) const override { return 0; }
    QVariant data(const QModelIndex &, int) const override { return {}; }
    bool setData(const QModelIndex &, const QVariant &, int) override
    {
        emit written();
        return true;
    }
signals:
    void written();
};

class Lines : public QAbstractListModel {
    Q_OBJECT
public:
    int rowCount(const QModelIndex &) const override { return 0; }
    QVariant data(const QModelIndex &, int) const override { return {}; }
    bool setData(const QModelIndex &, const QVariant &, int) override
    {
        emit drawn();
        return true;
    }
signals:
    void drawn();
};

class Shelf : public QObject {
    Q_OBJECT
public:
    Shelf()
    {
        m_sorted->setSourceModel(m_rows);
        m_shown->setSourceModel(m_sorted);
        m_other->setSourceModel(m_lines);
        connect(m_rows, &Rows::dataChanged, this, &Shelf::look);
        connect(m_lines, &Lines::dataChanged, this, &Shelf::look);
    }
    void write() { m_shown->setData(QModelIndex(), 1); }
    void look() { emit looked(); }
signals:
    void looked();
private:
    Rows *m_rows = new Rows;
    Lines *m_lines = new Lines;
    QSortFilterProxyModel *m_sorted = new QSortFilterProxyModel(this);
    QSortFilterProxyModel *m_shown = new QSortFilterProxyModel(this);
    QSortFilterProxyModel *m_other = new QSortFilterProxyModel(this);
};
