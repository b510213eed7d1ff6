// Objects that several hold, and pointers that know when theirs is gone.
#include <QtCore>
#include <memory>

class Coin : public QObject {
    Q_OBJECT
public:
    explicit Coin(QObject *parent = nullptr) : QObject(parent) {}
    ~Coin() override { emit melted(); }
    void spend() { emit spent(); }
signals:
    void spent();
    void melted();
};

class Purse : public QObject {
    Q_OBJECT
public:
    Purse() : m_guarded(new Coin(this)), m_shared(new Coin), m_standard(std::make_shared<Coin>()), m_weak(m_shared), m_watched(m_standard) {
        connect(m_guarded, &Coin::spent, this, &Purse::count);
        connect(m_shared.data(), &Coin::spent, this, &Purse::count);
        connect(m_standard.get(), &Coin::spent, this, &Purse::count);
        m_many.append(QSharedPointer<Coin>::create());
    }
    void count() { emit counted(); }

    void spendGuarded() { if (m_guarded) m_guarded->spend(); }
    void endGuarded() { delete m_guarded; }
    void forgetGuarded() { m_guarded.clear(); m_guarded = nullptr; m_guarded = new Coin(this); }
    void endGuardedLater() { m_guarded->deleteLater(); }

    void spendShared() { m_shared->spend(); }
    void spendWeak() { if (const auto locked = m_weak.lock()) locked->spend(); }
    void spendCopy() { const QSharedPointer<Coin> copy = m_shared; copy->spend(); }
    void endShared() { m_shared.reset(); }
    void clearShared() { m_shared.clear(); }
    void replaceShared() { m_shared = QSharedPointer<Coin>::create(); }
    void forgetWeak() { m_weak.clear(); m_watched.reset(); }

    void spendStandard() { m_standard->spend(); }
    void spendWatched() { if (const auto locked = m_watched.lock()) locked->spend(); }
    void endStandard() { m_standard.reset(); }
    void emptyStandard() { m_standard = {}; }
    void nullStandard() { m_standard = nullptr; }
    void replaceStandard() { m_standard = std::make_shared<Coin>(); }
    void spendEach() { for (const auto &one : m_many) one->spend(); }
    void endEach() { m_many.clear(); }
    void fill(std::shared_ptr<Coin> &out) { out = std::make_shared<Coin>(); }
    void spendFilled() { std::shared_ptr<Coin> one; fill(one); one->spend(); }
    void pick(Coin **out) { *out = m_guarded; }
    void spendPicked() { Coin *one = nullptr; pick(&one); one->spend(); }
    void end() { delete this; }

    void lend() { m_lent = QSharedPointer<Coin>(new Coin, &QObject::deleteLater); }
    void endLent() { m_lent.reset(); }
    void owe() { m_owed.reset(new Coin, [](Coin *it) { it->deleteLater(); }); }
    void endOwed() { m_owed.reset(); }
    void doubt(bool later) {
        auto *one = new Coin;
        m_doubted = later ? QSharedPointer<Coin>(one, &QObject::deleteLater) : QSharedPointer<Coin>(one);
    }
    void endDoubted() { m_doubted.reset(); }
signals:
    void counted();
private:
    QPointer<Coin> m_guarded;
    QSharedPointer<Coin> m_shared;
    std::shared_ptr<Coin> m_standard;
    QWeakPointer<Coin> m_weak;
    std::weak_ptr<Coin> m_watched;
    QList<QSharedPointer<Coin>> m_many;
    QSharedPointer<Coin> m_lent;
    std::shared_ptr<Coin> m_owed;
    QSharedPointer<Coin> m_doubted;
};
