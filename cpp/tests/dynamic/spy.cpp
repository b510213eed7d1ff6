// Loaded before a Qt program (LD_PRELOAD): notes which signals are emitted and which functions run while which others are, by Qt's own
// hook for signals and the compiler's for functions (-finstrument-functions), and ends a program that calls itself without end. Settings
// are variables of the environment:
//   SPY_OUT      the file that is written at the end; its form is in README.md beside this file
//   SPY_DEEPEST  how deep emissions may nest (else 200)
//   SPY_MOST     how often one signal may be emitted (else 20000)
//   SPY_STEPS    how many pokes are made at the program's widgets, before it is ended; without it there are none
//   SPY_SECONDS  how long pokes are made at most (else 20)
//   SPY_WAIT     the milliseconds between them (else 4)
//   SPY_FILL     what fields hold before each, as `name=value;name=value`, by the names of their objects
//   SPY_SEED     what the pokes begin from
#include "poke.h"
#include <QComboBox>
#include <QCoreApplication>
#include <QElapsedTimer>
#include <QLineEdit>
#include <QStandardItemModel>
#include <QThread>
#include <QTimer>
#include <algorithm>
#include <cstdio>
#include <cstdlib>
#include <dlfcn.h>
#include <map>
#include <mutex>
#include <set>
#include <private/qmetaobject_p.h>
#include <private/qobject_p.h>
#include <string>
#include <unordered_map>
#include <vector>

namespace {

// An emission that is delivered, or a function that runs.
struct Entry {
    QObject *sender;         // none of a function
    void *function;          // none of an emission
    int name;
    int loop;                // how many event loops run below it
    bool heard;              // whether somebody is connected to the signal; always, of a function
};

using Pair = std::pair<int, int>;

// Never destroyed: signals are emitted while a program ends, too.
thread_local std::vector<Entry> &stack = *new std::vector<Entry>;
std::recursive_mutex &guard = *new std::recursive_mutex;
std::vector<std::string> &names = *new std::vector<std::string>;
std::vector<long> &counts = *new std::vector<long>;           // of each name
std::vector<bool> &functions = *new std::vector<bool>;        // whether a name is a function's
std::unordered_map<std::string, int> &numbers = *new std::unordered_map<std::string, int>;
std::unordered_map<void *, int> &addresses = *new std::unordered_map<void *, int>;
std::map<Pair, long> &within = *new std::map<Pair, long>;
std::map<Pair, long> &loops = *new std::map<Pair, long>;
std::set<Pair> &heard = *new std::set<Pair>;                  // of within, those of which the inner one once was
std::set<QObject *> &watched = *new std::set<QObject *>;
std::map<int, long> &dead = *new std::map<int, long>;
size_t deepest = 0;
bool started = false;
bool written = false;

long setting(const char *name, long otherwise)
{
    const char *text = getenv(name);
    return text ? atol(text) : otherwise;
}

// The number of a signal, told as its sender's class, the class that declares it, and its name, parted by dots; or of a function, told
// as its file and the place in it.
int numbered(const std::string &name, bool isFunction)
{
    const auto found = numbers.try_emplace(name, int(names.size()));
    if (found.second) {
        names.push_back(name);
        counts.push_back(0);
        functions.push_back(isFunction);
    }
    return found.first->second;
}

void writePairs(FILE *file, const char *word, const std::map<Pair, long> &pairs, bool ofFunctions)
{
    for (const auto &it : pairs)
        if ((functions[it.first.first] || functions[it.first.second]) == ofFunctions)
            fprintf(file, "%s\t%s\t%s\t%ld\n", word, names[it.first.first].c_str(), names[it.first.second].c_str(), it.second);
}

void writeOut(const char *end)
{
    const std::lock_guard<std::recursive_mutex> held(guard);
    const char *path = getenv("SPY_OUT");
    if (written || !path)
        return;
    written = true;
    FILE *file = fopen(path, "w");
    if (!file)
        return;
    for (size_t it = 0; it < names.size(); ++it)
        fprintf(file, "%s\t%s\t%ld\n", functions[it] ? "called" : "emitted", names[it].c_str(), counts[it]);
    writePairs(file, "within", within, false);
    writePairs(file, "loop", loops, false);
    writePairs(file, "under", within, true);
    for (const auto &it : within)
        if (!heard.count(it.first))
            fprintf(file, "unheard\t%s\t%s\n", names[it.first.first].c_str(), names[it.first.second].c_str());
    for (const auto &it : dead)
        fprintf(file, "dead\t%s\t%ld\n", names[it.first].c_str(), it.second);
    fprintf(file, "deepest\t%zu\nend\t%s\n", deepest, end);
    fclose(file);
}

[[noreturn]] void stop(const char *end)
{
    writeOut(end);
    _Exit(70);
}

// Whether an object is one that Qt made for another of its own, as the buttons of a message box: Qt's name for it says so. What the
// application put into a viewport or a stack of Qt's isn't. The model and the line edit of a combo box have no names: they are of just
// these classes. What a manager of requests does it does in a thread of its own.
bool isInner(const QObject *it)
{
    const QMetaObject *own = it->metaObject();
    if (it->thread() && it->thread()->objectName() == QLatin1String("QNetworkAccessManager thread"))
        return true;
    if ((own == &QStandardItemModel::staticMetaObject || own == &QLineEdit::staticMetaObject) && qobject_cast<const QComboBox *>(it->parent()))
        return true;
    for (; it; it = it->parent()) {
        const QString name = it->objectName();
        if (name.startsWith("qt_") && name != "qt_scrollarea_viewport" && name != "qt_tabwidget_stackedwidget")
            return true;
    }
    return false;
}

std::string told(const QObject *sender, const QMetaMethod &signal)
{
    const QMetaObject *own = sender->metaObject();
    while (own->superClass() && own->methodOffset() > signal.methodIndex())
        own = own->superClass();
    return (isInner(sender) ? "~" : "") + std::string(sender->metaObject()->className()) + "." + own->className() + "."
        + signal.name().toStdString();
}

// An object that dies while its signal is delivered: Qt tells no end of that emission.
void noteDeath(QObject *it)
{
    watched.erase(it);
    for (auto at = stack.begin(); at != stack.end();) {
        if (at->sender == it) {
            ++dead[at->name];
            at = stack.erase(at);
        } else {
            ++at;
        }
    }
}

// Qt tells that an object is destroyed only where somebody is connected to that.
void watch(QObject *it)
{
    if (!QObjectPrivate::get(it)->wasDeleted && watched.insert(it).second)
        QObject::connect(it, &QObject::destroyed, it, [] {}, Qt::DirectConnection);
}

// What begins runs within all that has begun in the same event loop.
void enter(const Entry &now)
{
    ++counts[now.name];
    for (const Entry &outer : stack) {
        ++(outer.loop == now.loop ? within : loops)[{outer.name, now.name}];
        if (now.heard && outer.loop == now.loop)
            heard.insert({outer.name, now.name});
    }
    stack.push_back(now);
}

// What has ended, with all above it: of that Qt told no end.
template<typename Test>
void leave(Test isIt)
{
    for (size_t at = stack.size(); at-- > 0;) {
        if (isIt(stack[at])) {
            stack.resize(at);
            return;
        }
    }
}

int level()
{
    return int(QThread::currentThread()->loopLevel());
}

void begin(QObject *caller, int index, void **)
{
    const QMetaMethod signal = QMetaObjectPrivate::signal(caller->metaObject(), index);
    const std::lock_guard<std::recursive_mutex> held(guard);
    if (signal.name() == "destroyed")
        noteDeath(caller);
    else
        watch(caller);
    const bool isHeard = QObjectPrivate::get(caller)->isSignalConnected(uint(index));
    const Entry now{caller, nullptr, numbered(told(caller, signal), false), level(), isHeard};
    if (counts[now.name] >= setting("SPY_MOST", 20000))
        stop("endless");
    enter(now);
    const auto emissions = size_t(std::count_if(stack.begin(), stack.end(), [](const Entry &it) { return it.sender; }));
    deepest = std::max(deepest, emissions);
    if (long(emissions) > setting("SPY_DEEPEST", 200))
        stop("overflow");
}

void end(QObject *caller, int)
{
    leave([caller](const Entry &it) { return it.sender == caller; });
}

int numberOf(void *function)
{
    const auto found = addresses.try_emplace(function, -1);
    Dl_info where;
    if (found.second && dladdr(function, &where) && where.dli_fname) {
        char place[32];
        snprintf(place, sizeof place, "@%zx", size_t(static_cast<char *>(function) - static_cast<char *>(where.dli_fbase)));
        found.first->second = numbered(where.dli_fname + std::string(place), true);
    }
    return found.first->second;
}

void next()
{
    static long left = setting("SPY_STEPS", 0);
    static QElapsedTimer time;
    if (!time.isValid())
        time.start();
    if (left-- <= 0 || time.hasExpired(setting("SPY_SECONDS", 20) * 1000))
        stop("steps");
    QTimer::singleShot(int(setting("SPY_WAIT", 4)), qApp, next);       // before the poke, since that may run an event loop
    std::vector<Entry> kept;
    kept.swap(stack);                        // a poke is no part of what runs around it
    poke();
    kept.swap(stack);
}

void start()
{
    static QSignalSpyCallbackSet set{begin, nullptr, end, nullptr};
    qt_register_signal_spy_callbacks(&set);
    atexit([] { writeOut("exit"); });
    started = true;
    if (getenv("SPY_STEPS"))
        QTimer::singleShot(50, qApp, next);
}

__attribute__((constructor)) void load()
{
    if (getenv("SPY_OUT"))
        qAddPreRoutine(start);
}

}  // namespace

// The compiler's hook: each function that was compiled for it begins and ends with these.
extern "C" void __cyg_profile_func_enter(void *function, void *)
{
    if (!started || written)
        return;
    const std::lock_guard<std::recursive_mutex> held(guard);
    const int name = numberOf(function);
    if (name >= 0)
        enter({nullptr, function, name, level(), true});
}

extern "C" void __cyg_profile_func_exit(void *function, void *)
{
    if (started && !written)
        leave([function](const Entry &it) { return it.function == function; });
}
