// Function objects and pointers to functions: which are known, and which aren't.
#include <QtCore>
#include <functional>

class Bell : public QObject {
    Q_OBJECT
public:
    void ring() { emit rung(); }
signals:
    void rung();
};

void toll(Bell *bell) { bell->ring(); }
std::function<void()> fromElsewhere();
Q_GLOBAL_STATIC(Bell, theBell)

class Ringer : public QObject {
    Q_OBJECT
public:
    explicit Ringer(Bell *bell) : bell_(bell), toll_(&toll)
    {
        late_ = [this] { bell_->ring(); };
        named_["one"] = [this] { bell_->ring(); };
        all_.append([this] { bell_->ring(); });
        bound_ = std::bind(&Bell::ring, bell);
        strange_ = [this] { bell_->ring(); };
        strange_ = fromElsewhere();
        cleared_ = [this] { bell_->ring(); };
        cleared_ = nullptr;
    }
    void callFirst() { first_(); }
    void callLate() { late_(); }
    void callNamed() { named_["one"](); }
    void callAll() { for (const auto &one : std::as_const(all_)) one(); }
    void callBound() { bound_(); }
    void callPointer() { toll_(bell_); }
    void callCleared() { cleared_(); }
    void callLocal() { std::function<void()> local = [this] { bell_->ring(); }; local(); }
    void callGlobal() { theBell()->ring(); }
    void hands() { takes([this] { bell_->ring(); }); alsoTakes(fromElsewhere()); }
    void takes(std::function<void()> given) { further(given); }
    void further(const std::function<void()> &given) { given(); }

    void callStrange() { strange_(); }
    void callEmpty() { empty_(); }
    void alsoTakes(std::function<void()> given) { given(); }
public slots:
    void fromOutside(std::function<void()> given) { given(); }
private:
    Bell *bell_;
    void (*toll_)(Bell *);
    std::function<void()> first_ = [this] { bell_->ring(); };
    std::function<void()> late_, bound_, strange_, empty_, cleared_;
    QHash<QString, std::function<void()>> named_;
    QList<std::function<void()>> all_;
};

int main()
{
    Bell bell;
    Ringer ringer(&bell);
    ringer.hands();
}
