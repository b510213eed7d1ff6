// Functions that are handed to a library, which calls them at once or later.
#include <QtConcurrent>
#include <QtCore>
#include <algorithm>
#include <functional>

class Chime : public QObject {
    Q_OBJECT
public:
    void strike() { emit struck(); }
signals:
    void struck();
};

void strikeOne(Chime *chime) { chime->strike(); }
bool before(int one, int other);

class Tower : public QObject {
    Q_OBJECT
public:
    static void strikeAny(Chime *chime) { chime->strike(); }
    void byFunction() { std::for_each(chimes.begin(), chimes.end(), strikeOne); }
    void byStatic() { std::for_each(chimes.begin(), chimes.end(), &Tower::strikeAny); }
    void byVariable() { std::function<void(Chime *)> held = strikeOne; std::for_each(chimes.begin(), chimes.end(), held); }
    void byMember() { auto future = QtConcurrent::run(&Tower::strikeAll, this); }
    void laterByFunction() { auto future = QtConcurrent::run(strikeOne, chimes.first()); }
    void sorts(QList<int> list) { std::sort(list.begin(), list.end(), std::greater<int>()); qDebug() << Qt::endl; }
    void strikeAll() { for (Chime *chime : std::as_const(chimes)) chime->strike(); }
    QList<Chime *> chimes;
};

int main()
{
    Chime chime;
    Tower tower;
    tower.chimes.append(&chime);
}
