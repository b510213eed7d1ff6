// What a constructor runs that isn't written in it: the constructors of bases and members.
#include <QtCore>

class Bell : public QObject {
    Q_OBJECT
public:
    Bell() { emit rung(); }
    explicit Bell(int) { emit rung(); }
signals:
    void rung();
};

struct Tower {
    Bell top;
};

class Place : public QObject {
    Q_OBJECT
public:
    Place() { emit begun(); }
    explicit Place(int) { emit begun(); }
signals:
    void begun();
};

class Town : public Place {
    Q_OBJECT
public:
    Town();
    explicit Town(int count) : Town() { Q_UNUSED(count); }
    explicit Town(const QString &) : Place(1), m_bell(2), m_fresh(nullptr) {}
signals:
    void seen();
private:
    Bell m_bell;
    Tower m_tower;
    Bell *m_fresh = new Bell;
    Bell *m_none = nullptr;
};

Town::Town() {}

class Map : public QObject {
    Q_OBJECT
public:
    Map() {
        connect(&m_town, &Place::begun, this, &Map::look);
        connect(&m_bell, &Bell::rung, this, &Map::look);
    }
    void look() { emit looked(); }
    void build() { new Town; new Town(3); new Town(QString()); }
signals:
    void looked();
private:
    Town m_town;
    Bell m_bell;
};
