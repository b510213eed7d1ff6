// Models that a model of Qt's own makes: a change of the one is none of the other.
#include <QSqlRelationalTableModel>

class Archive : public QObject {
    Q_OBJECT
public:
    Archive() {
        m_albums = new QSqlRelationalTableModel(this);
        connect(m_albums->relationModel(2), &QAbstractItemModel::modelReset, this, &Archive::choose);
    }
    void choose() { m_albums->setFilter("artist"); }
    void forget() { m_albums->relationModel(2)->clear(); }
private:
    QSqlRelationalTableModel *m_albums;
};
