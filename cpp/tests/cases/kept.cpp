// Containers that hold objects themselves, or what owns some: what ends these.
#include <QtCore>
#include <functional>
#include <list>
#include <memory>
#include <optional>
#include <utility>
#include <variant>
#include <vector>

class Coin : public QObject {
    Q_OBJECT
public:
    void toss() { emit tossed(); }
signals:
    void tossed();
};

struct Purse {
    int m_count;
    std::unique_ptr<Coin> m_coin;
};

class Bank : public QObject {
    Q_OBJECT
public:
    Bank() { m_owners = {}; connect(&m_perhaps.emplace(), &Coin::tossed, this, &Bank::endPerhaps); }
    void endPerhaps() { m_perhaps.reset(); }
    void emptyPerhaps() { m_perhaps = std::nullopt; }
    void renewPerhaps() { m_perhaps.emplace(); }
    void endFirst() { m_list.pop_front(); }
    void endPurses() { m_purses.clear(); }
    void assign() { m_owners = {}; }
    void eraseSome() { erase_if(m_shared, [](QHash<int, std::shared_ptr<Coin>>::iterator it) { return it.key() > 1; }); }
    void swapAway() { std::vector<std::unique_ptr<Coin>> old; old.swap(m_owners); }
    void moveAway() { auto old = std::move(m_owners); }
    void change() { m_either = std::make_unique<Bank>(); }
    void swapped() { std::swap(m_one, m_two); m_one->toss(); }
    void invokes() { std::invoke(&Coin::toss, m_two); }
    void each() { std::for_each(m_coins.begin(), m_coins.end(), std::mem_fn(&Coin::toss)); }
    void bound() { auto later = std::bind(&Coin::toss, m_two); Q_UNUSED(later); }
    void restart() { static Coin *coin = new Coin; delete coin; coin = new Coin; }
    // Twins: nothing ends here.
    void looks() { auto &all = m_owners; for (auto &one : all) m_count += one != nullptr; auto &last = m_owners.back(); last->toss(); }
    void fills() { std::vector<std::unique_ptr<Coin>> made; made.push_back(std::make_unique<Coin>()); m_owners = std::move(made); }
    std::vector<std::unique_ptr<Coin>> gives() { std::vector<std::unique_ptr<Coin>> made; made.push_back(std::make_unique<Coin>()); return made; }
private:
    std::optional<Coin> m_perhaps;
    std::list<Coin> m_list;
    std::vector<Purse> m_purses;
    std::vector<std::unique_ptr<Coin>> m_owners;
    QHash<int, std::shared_ptr<Coin>> m_shared { { 1, std::make_shared<Coin>() } };
    std::variant<std::unique_ptr<Coin>, std::unique_ptr<Bank>> m_either = std::make_unique<Coin>();
    QList<Coin *> m_coins;
    Coin *m_one = nullptr;
    Coin *m_two = new Coin;
    int m_count = 0;
};

void use()
{
    auto *bank = new Bank;
    bank->fills();
}
