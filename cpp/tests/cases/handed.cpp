// Lambdas and function objects that templates hand on: connected, called, posted and kept.
#include <QtCore>
#include <functional>

class Bell : public QObject {
    Q_OBJECT
public:
    void ring() { emit rung(); }
    void toll() { emit tolled(); }
signals:
    void rung();
    void tolled();
};

struct Toll {
    Bell *m_bell;
    void operator()() const { m_bell->toll(); }
};

template <class F> void whenRung(Bell *bell, F f) { QObject::connect(bell, &Bell::rung, bell, f); }
template <class F> void forwarded(Bell *bell, F &&f) { QObject::connect(bell, &Bell::rung, bell, std::forward<F>(f)); }
template <class F> void further(Bell *bell, F f) { whenRung(bell, f); }
template <class F> void wrapped(Bell *bell, F f) { QObject::connect(bell, &Bell::rung, bell, [f] { f(); }); }
template <class F> void later(Bell *bell, F f) { QTimer::singleShot(0, bell, f); }
template <class F> void invoked(Bell *bell, F f) { QMetaObject::invokeMethod(bell, std::move(f), Qt::QueuedConnection); }
template <class... Fs> void each(Bell *bell, Fs... fs) { (QObject::connect(bell, &Bell::rung, bell, fs), ...); }

void use()
{
    auto *bell = new Bell;
    whenRung(bell, [bell] { bell->toll(); });
    forwarded(bell, [bell] { bell->toll(); });
    further(bell, [bell] { bell->toll(); });
    wrapped(bell, [bell] { bell->toll(); });
    later(bell, [bell] { bell->toll(); });
    invoked(bell, [bell] { bell->toll(); });
    each(bell, [bell] { bell->toll(); });
    Toll toll { bell };
    QObject::connect(bell, &Bell::rung, bell, toll);
    QObject::connect(bell, &Bell::rung, bell, Toll { bell });
}
