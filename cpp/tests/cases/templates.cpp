// What each instance of a template does, to what its variables may hold.
#include <QtCore>
#include <memory>

class Apple : public QObject {
    Q_OBJECT
public:
    ~Apple() override { emit fallen(); }
    void press() { emit pressed(); }
signals:
    void fallen();
    void pressed();
};

class Pear : public QObject {
    Q_OBJECT
public:
    ~Pear() override { emit fallen(); }
    void press() { emit pressed(); }
signals:
    void fallen();
    void pressed();
};

template <typename T> void drop(T *&held) { delete held; held = nullptr; }
template <typename T> void squeeze(T *held) { held->press(); }
template <typename T> T *same(T *held) { T *it = held; return it; }
template <typename T> T *grown() { T *made = new T; QObject::connect(made, &T::pressed, made, [made] { emit made->fallen(); }); return made; }

template <typename T> class Box {
public:
    virtual ~Box() = default;
    void set(T *given) { m_held = given; }
    void cut() { delete m_held; }
    virtual void shake() { m_held->press(); }
private:
    T *m_held = nullptr;
    std::unique_ptr<T> m_own;
};

class Crate : public Box<Apple> {
public:
    void shake() override { set(nullptr); cut(); }
};

class Garden : public QObject {
    Q_OBJECT
public:
    void dropApple() { drop(m_apple); }
    void dropPear() { drop(m_pear); }
    void squeezeApple() { squeeze(m_apple); }
    void pressSame() { same(m_pear)->press(); }
    void fill() { m_apples.set(m_apple); m_pears.set(m_pear); }
    void cutApples() { m_apples.cut(); }
    void cutPears() { m_pears.cut(); }
    void shakes() { m_crate->shake(); }
    void grow() { grown<Apple>(); grown<Pear>(); }
    void pair() { m_pairs.insert(m_apple, m_pear); }
    void pressKeys() { for (Apple *one : m_pairs.keys()) one->press(); }
    void pressValues() { for (Pear *one : m_pairs) one->press(); }
    void pressFound() { auto at = m_list.begin(); (*at)->press(); }
    void pressMapped() { for (auto at = m_pairs.begin(); at != m_pairs.end(); ++at) { at.key()->press(); at.value()->press(); } }
    void visit() { auto each = [](auto *one) { one->press(); }; each(m_apple); each(m_pear); }
private:
    Apple *m_apple = new Apple;
    Pear *m_pear = new Pear;
    Box<Apple> m_apples;
    Box<Pear> m_pears;
    Box<Apple> *m_crate = new Crate;
    QMap<Apple *, Pear *> m_pairs;
    QList<Pear *> m_list { m_pear };
};
