// Objects whose constructors a library's function runs, or that are made without one; and calls that stand beside the text.
#include <QtCore>
#include <functional>
#include <list>
#include <memory>
#include <optional>
#include <utility>
#include <vector>

class Bell : public QObject {
    Q_OBJECT
public:
    void ring() { emit rung(); }
    int loud() { ring(); return 1; }
    std::pair<int, int> both() { ring(); return {1, 2}; }
signals:
    void rung();
};

class Ringer : public QObject {
    Q_OBJECT
public:
    Ringer() { tire(); }
    explicit Ringer(Bell *bell) { bell->ring(); }
    Ringer(int, int) {}
    void tire() { emit tired(); }
signals:
    void tired();
};

struct Rope {
    explicit Rope(Bell *bell) { bell->ring(); }
};

struct Guard {
    Bell *m_bell = nullptr;
    ~Guard() { m_bell->ring(); }
};
struct Guarded {
    Guard m_guard;
    int m_count;
};
struct Order {
    QString m_name;
    std::function<void()> m_run;
};

class Tower : public QObject {
    Q_OBJECT
public:
    explicit Tower(Bell *bell) : m_bell(bell) { m_orders.append({"ring", [this] { m_bell->ring(); }}); }
    void unique() { m_unique = std::make_unique<Ringer>(m_bell); }
    void shared() { m_shared = std::make_shared<Ringer>(m_bell); }
    void ofQt() { m_ofQt = QSharedPointer<Ringer>::create(m_bell); }
    void plain() { m_unique = std::make_unique<Ringer>(); }
    void two() { m_unique = std::make_unique<Ringer>(1, 2); }
    void perhaps() { m_perhaps.emplace(m_bell); }
    void inList() { m_list.emplace_back(m_bell); }
    void inMap() { m_map.try_emplace(1, m_bell); }
    void ofValues() { m_ropes.emplace_back(m_bell); }
    void byDefault() { ask(); }
    void ask(int loud = theBell->loud()) { m_count = loud; }
    void parts() { auto [one, two] = m_bell->both(); m_count = one + two; }
    void captured() { m_orders.append({"none", [loud = m_bell->loud()] { Q_UNUSED(loud); }}); }
    void guards() { Guard guard{m_bell}; m_count = 1; }
    void guardsInside() { Guarded guarded{{m_bell}, 1}; m_count = guarded.m_count; }
    void runs() { for (const auto &order : std::as_const(m_orders)) order.m_run(); }
    static inline Bell *theBell = new Bell;
private:
    Bell *m_bell;
    std::unique_ptr<Ringer> m_unique;
    std::shared_ptr<Ringer> m_shared;
    QSharedPointer<Ringer> m_ofQt;
    std::optional<Ringer> m_perhaps;
    std::list<Ringer> m_list;
    std::map<int, Ringer> m_map;
    std::vector<Rope> m_ropes;
    QList<Order> m_orders;
    int m_count = 0;
};

void use()
{
    new Tower(new Bell);
}
