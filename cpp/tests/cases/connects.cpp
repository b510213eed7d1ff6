// Each form of connect, from one signal to a slot of its own.
#include <QtCore>
#include <functional>

class Sender : public QObject {
    Q_OBJECT
signals:
    void plain();
    void number(int value);
    void number(const QString &words);
    void two(int first, const QString &second);
    void real(double value);
};

class Receiver : public QObject {
    Q_OBJECT
public:
    explicit Receiver(Sender *given) : sender_(given) {}
    void connectAll();
    template <typename Signal> void follow(Signal signal) { connect(sender_, signal, this, &Receiver::byTemplate); }
    void helped(const char *signal, const char *slot) { connect(sender_, signal, this, slot); }
public slots:
    void byMember() { emit told(); }
    void byOverload(int) { emit told(); }
    void byCast(const QString &) { emit told(); }
    void byText(int) { emit told(); }
    void byShortText() { emit told(); }
    void fewer(int) { emit told(); }
    void converted(int) { emit told(); }
    void byTemplate() { emit told(); }
    void byHelper() { emit told(); }
    void bound() { emit told(); }
    void queued() { emit told(); }
    void held() { emit told(); }
signals:
    void told();
    void again(int value);
private:
    Sender *sender_;
};

static void freeSlot(Receiver *receiver) { receiver->byMember(); }
static void noArguments() {}

void Receiver::connectAll()
{
    connect(sender_, &Sender::plain, this, &Receiver::byMember);
    connect(sender_, qOverload<int>(&Sender::number), this, &Receiver::byOverload);
    connect(sender_, static_cast<void (Sender::*)(const QString &)>(&Sender::number), this, &Receiver::byCast);
    connect(sender_, SIGNAL(number(int)), this, SLOT(byText(int)));
    connect(sender_, SIGNAL( number( int ) ), SLOT(byShortText()));
    connect(sender_, &Sender::two, this, &Receiver::fewer);
    connect(sender_, &Sender::real, this, &Receiver::converted);
    connect(sender_, QOverload<int>::of(&Sender::number), this, &Receiver::again);
    connect(sender_, &Sender::plain, this, [this] { byMember(); });
    connect(sender_, &Sender::plain, [this] { freeSlot(this); });
    auto kept = [this](int value) { emit again(value); };
    connect(sender_, qOverload<int>(&Sender::number), this, kept);
    connect(sender_, &Sender::plain, this, std::bind(&Receiver::bound, this));
    connect(sender_, &Sender::plain, this, &Receiver::queued, Qt::QueuedConnection);
    connect(sender_, &Sender::plain, &noArguments);
    auto pointer = &Receiver::held;
    connect(sender_, &Sender::plain, this, pointer);
    follow(&Sender::plain);
    helped(SIGNAL(plain()), SLOT(byHelper()));
    QMetaObject::Connection never = connect(sender_, QMetaMethod(), this, QMetaMethod());
    disconnect(never);
}

// Function objects that are handed on and kept.
class Keeper : public QObject {
    Q_OBJECT
public:
    explicit Keeper(std::function<void()> first) : first_(std::move(first)) {}
    void keep(std::function<void()> next) { next_ = std::move(next); }
    void finish() { first_(); next_(); }
private:
    std::function<void()> first_, next_;
};

void keepAll(Receiver *one)
{
    Keeper keeper([one] { one->byMember(); });
    keeper.keep([one] { one->held(); });
    keeper.finish();
}
