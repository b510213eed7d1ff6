// Calls each function on each set-up of its class and those below it, and writes what came. A driver runs it in parts:
//     program COUNT            how many set-ups there are
//     program RUN S FROM [ONLY]  the calls of set-up S from call FROM on; ONLY: functions `QClass.name` whose name has this text
// Each call's lines begin with `call`; after a crash the driver goes on behind the last one.
#include "registry.h"
#include <csignal>
#include <cstdio>
#include <unistd.h>

std::vector<SetUp> &setUps()
{
    static std::vector<SetUp> all;
    return all;
}

std::vector<Call> &calls()
{
    static std::vector<Call> all;
    return all;
}

void registerAll();

namespace {

constexpr unsigned patience = 4;        // seconds for one call

void write(const QByteArray &line)
{
    fwrite(line.constData(), 1, size_t(line.size()), stdout);
    fputc('\n', stdout);
}

void one(const SetUp &made, const Call &call, bool shown)
{
    alarm(patience);
    Scene scene;
    const Subject subject = made.make(scene);
    scene.place(subject, shown);
    const QPointer<QObject> alive(subject.object);
    recorder::start(subject.object, scene.known(subject.object));
    // Arguments are made within the call; what they are is told to the recorder by the scene.
    call.run(subject, scene);
    recorder::later();
    scene.settle();
    for (const QByteArray &line : recorder::stop())
        write(line);
    fflush(stdout);          // what stands around it may crash as it ends
    if (subject.object && !alive)
        scene.self = nullptr;
}

int run(size_t index, size_t from, const QByteArray &only)
{
    const SetUp &made = setUps().at(index);
    Subject probe;
    std::vector<size_t> fitting;
    {
        Scene scene;
        probe = made.make(scene);
        scene.self = probe.object;
        for (size_t it = 0; it < calls().size(); ++it)
            if (calls()[it].fits(probe) && (QByteArray(calls()[it].cls) + "." + calls()[it].function).contains(only))
                fitting.push_back(it);
    }
    const int modes = qobject_cast<QGuiApplication *>(qApp) ? 2 : 1;
    size_t number = 0;
    for (size_t it : fitting) {
        for (int shown = 0; shown < modes; ++shown, ++number) {
            if (number < from)
                continue;
            const Call &call = calls()[it];
            write("call\t" + QByteArray::number(qulonglong(number)) + "\t" + call.cls + "\t" + call.function + "\t" + made.cls + "\t"
                  + made.name + "\t" + (shown ? "shown" : "hidden") + "\t" + QByteArray::number(call.variant));
            fflush(stdout);
            one(made, call, shown);
            write("done");
        }
    }
    fflush(stdout);
    return 0;
}

class Application : public QApplication
{
public:
    using QApplication::QApplication;
    bool notify(QObject *to, QEvent *event) override
    {
        const recorder::Delivery delivery(to, event);
        return QApplication::notify(to, event);
    }
};

void quiet(QtMsgType, const QMessageLogContext &, const QString &) {}

}  // namespace

int main(int count, char **words)
{
    Application application(count, words);
    QApplication::setQuitOnLastWindowClosed(false);
    qInstallMessageHandler(quiet);
    recorder::install();
    registerAll();
    if (count >= 4 && QByteArray(words[1]) == "RUN") {
        const int status = run(size_t(atoi(words[2])), size_t(atoi(words[3])), count > 4 ? words[4] : "");
        fflush(stdout);
        _exit(status);          // what Qt does at its end is no part of this
    }
    for (const SetUp &it : setUps())
        write(QByteArray(it.cls) + "\t" + it.name);
    return 0;
}
