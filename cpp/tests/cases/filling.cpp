// Smart pointers that a constructor fills.
#include <QtCore>
#include <memory>

class Lamp : public QObject {
    Q_OBJECT
public:
    ~Lamp() override { emit out(); }
signals:
    void out();
};

class House : public QObject {
    Q_OBJECT
public:
    House() : m_given(new Lamp) {
        m_once.reset(new Lamp);
        m_twice.reset(new Lamp);
        m_twice.reset(new Lamp);
        m_given.reset(new Lamp);
        m_early.reset(new Lamp);
        for (int i = 0; i < 2; ++i)
            m_again.reset(new Lamp);
    }
    void change() { m_once.reset(new Lamp); }
private:
    std::unique_ptr<Lamp> m_once, m_twice, m_given, m_again;
    QScopedPointer<Lamp> m_early { new Lamp };
};
