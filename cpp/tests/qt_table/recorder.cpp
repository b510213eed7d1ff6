#include "recorder.h"
#include <private/qmetaobject_p.h>
#include <private/qobject_p.h>

namespace recorder {
namespace {

QObject *subject = nullptr;
bool on = false, fromLoop = false;
QHash<QObject *, Known> objects;
QByteArrayList lines;
QSet<QByteArray> seen;
QSet<QObject *> gone;

void note(const QByteArray &line)
{
    const QByteArray whole = (fromLoop ? "later\t" : "once\t") + line;
    if (!seen.contains(whole)) {
        seen.insert(whole);
        lines << whole;
    }
}

// Objects that an application reaches without any other.
bool single(const QObject *it)
{
    return it == qApp || it == QGuiApplication::clipboard() || it == QGuiApplication::styleHints()
        || it == QGuiApplication::inputMethod() || qobject_cast<const QScreen *>(it);
}

bool isNamed(QObject *it)
{
    const auto found = objects.constFind(it);
    return it == subject || (found != objects.constEnd() && found->named);
}

// Whose an object is, as seen from another one: its own self; owned by it; another one that the application made; one that Qt made
// inside it, or beyond it, inside another one; or hidden, since no application reaches it.
QByteArray who(QObject *it, QObject *from)
{
    if (it == from)
        return "self";
    if (isNamed(it))
        return from && under(it, from) ? "owned" : "other";
    if (single(it))
        return "other";
    for (QObject *above = it->parent(); above; above = above->parent())
        if (isNamed(above))
            return from && under(it, from) ? "inside" : "beyond";
    return "hidden";
}

QByteArray who(QObject *it)
{
    return who(it, subject);
}

struct Handler {
    QObject *object;
    QByteArray name;
    QByteArray classes;
};
QList<Handler> deliveries;

void begin(QObject *caller, int index, void **)
{
    if (!on || QThread::currentThread() != qApp->thread())
        return;
    const QMetaObject *real = caller->metaObject();
    const QMetaMethod signal = QMetaObjectPrivate::signal(real, index);
    if (signal.name() == "destroyed") {
        const auto found = objects.constFind(caller);
        gone.insert(caller);
        if (found != objects.constEnd())
            note("deleted\t" + who(caller) + "\t" + found->classes + "\t" + QByteArray::number(found->argument));
        return;
    }
    const QMetaObject *own = real;
    while (own->superClass() && own->methodOffset() > signal.methodIndex())
        own = own->superClass();
    QObject *from = subject;
    QByteArray handler = "\t";
    if (!deliveries.isEmpty()) {
        from = deliveries.last().object;
        handler = deliveries.last().name + "\t" + deliveries.last().classes;
    }
    note("signal\t" + who(caller, from) + "\t" + classesOf(real, own) + "\t" + signal.name() + "\t" + handler);
}

const QHash<int, QByteArray> &handlers()
{
    static const QHash<int, QByteArray> all{
        {QEvent::Show, "showEvent"}, {QEvent::Hide, "hideEvent"}, {QEvent::Resize, "resizeEvent"}, {QEvent::Move, "moveEvent"},
        {QEvent::FocusIn, "focusInEvent"}, {QEvent::FocusOut, "focusOutEvent"}, {QEvent::Close, "closeEvent"},
        {QEvent::Paint, "paintEvent"}, {QEvent::ActionAdded, "actionEvent"}, {QEvent::ActionChanged, "actionEvent"},
        {QEvent::ActionRemoved, "actionEvent"}, {QEvent::EnabledChange, "changeEvent"}, {QEvent::FontChange, "changeEvent"},
        {QEvent::PaletteChange, "changeEvent"}, {QEvent::StyleChange, "changeEvent"}, {QEvent::WindowTitleChange, "changeEvent"},
        {QEvent::WindowStateChange, "changeEvent"}, {QEvent::ModifiedChange, "changeEvent"},
        {QEvent::ActivationChange, "changeEvent"}, {QEvent::ParentChange, "changeEvent"},
        {QEvent::LayoutDirectionChange, "changeEvent"}, {QEvent::LocaleChange, "changeEvent"},
        {QEvent::ToolTipChange, "changeEvent"}, {QEvent::WindowIconChange, "changeEvent"},
        {QEvent::LanguageChange, "changeEvent"}, {QEvent::MouseButtonPress, "mousePressEvent"},
        {QEvent::MouseButtonRelease, "mouseReleaseEvent"}, {QEvent::KeyPress, "keyPressEvent"}, {QEvent::Timer, "timerEvent"},
        {QEvent::Enter, "enterEvent"}, {QEvent::Leave, "leaveEvent"}, {QEvent::User, "event"}};
    return all;
}

// Stands in the queue of events while a function runs: where it is delivered, an event loop runs inside.
QObject *probe()
{
    static QObject it;
    return &it;
}

// Who became the owner of the subject itself, or that it has none any more.
void parentOfSubject()
{
    if (!subject || gone.contains(subject))
        return;
    const Known known = objects.value(subject);
    QObject *now = subject->parent();
    const int number = objects.value(now).argument;
    if (now && now != known.parent && number > 0)
        note("joined\tself\t" + known.classes + "\t" + QByteArray::number(number));
    if (!now && known.parent)
        note("released\tself\t" + known.classes + "\tthis");
}

void parents()
{
    parentOfSubject();
    for (auto it = objects.constBegin(); it != objects.constEnd(); ++it) {
        if (!it->named || it.key() == subject || gone.contains(it.key()))
            continue;
        QObject *now = it.key()->parent();
        if (now && !it->parent && it->argument > 0)
            note("owned\t" + who(now) + "\t" + it->classes + "\t" + QByteArray::number(it->argument));
        if (!now && it->parent)
            note("released\t" + QByteArray(it->parent == subject ? "self" : "other") + "\t" + it->classes + "\t"
                 + QByteArray::number(it->argument));
    }
}

}  // namespace

QByteArray classesOf(const QMetaObject *it, const QMetaObject *last)
{
    QByteArrayList names;
    for (; it; it = it->superClass()) {
        names << it->className();
        if (it == last)
            break;
    }
    return names.join('>');
}

bool under(const QObject *it, const QObject *above)
{
    for (; it; it = it->parent())
        if (it == above)
            return true;
    return false;
}

// Qt tells that an object is destroyed only where somebody is connected to that.
void watch(QObject *it)
{
    QObject::connect(it, &QObject::destroyed, it, [] {}, Qt::DirectConnection);
}

void start(QObject *self, const QHash<QObject *, Known> &known)
{
    subject = self;
    objects = known;
    for (auto it = known.constBegin(); it != known.constEnd(); ++it)
        watch(it.key());
    lines.clear();
    seen.clear();
    gone.clear();
    deliveries.clear();
    fromLoop = false;
    QCoreApplication::postEvent(probe(), new QEvent(QEvent::User));
    on = true;
}

void add(QObject *it, const Known &known)
{
    Known whole = known;
    whole.parent = it->parent();
    objects.insert(it, whole);
    watch(it);
}

Delivery::Delivery(QObject *to, const QEvent *event) : m_counted(false)
{
    if (on && !fromLoop && to == probe()) {
        note("looped\tself\t\tmodal");
        fromLoop = true;
    }
    if (!on || QThread::currentThread() != qApp->thread() || !isNamed(to))
        return;
    const auto found = handlers().constFind(event->type());
    const bool updates = to->isWindowType() && event->type() == QEvent::UpdateRequest;
    const bool known = found != handlers().constEnd() || updates;
    const QByteArray name = updates || !known ? QByteArray("event") : *found;
    if (known)
        note("called\t" + who(to) + "\t" + (to->isWidgetType() ? "QWidget" : "QObject") + "\t" + name);
    if (objects.value(to).argument < 0)
        return;          // the window around it: what comes in its handlers is of the call
    m_counted = true;
    deliveries << Handler{to, name, classesOf(to->metaObject())};
}

Delivery::~Delivery()
{
    if (m_counted && !deliveries.isEmpty())
        deliveries.removeLast();
}

Pause::Pause() : m_before(on)
{
    on = false;
}

Pause::~Pause()
{
    on = m_before;
}

void later()
{
    parents();
    fromLoop = true;
}

QByteArrayList stop()
{
    on = false;
    QCoreApplication::removePostedEvents(probe());
    return lines;
}

void called(const char *name)
{
    if (on)
        note(QByteArray("called\tself\t\t") + name);
}

void calledOf(const char *cls, const char *name)
{
    if (on)
        note(QByteArray("called\tother\t") + cls + "\t" + name);
}

void install()
{
    static QSignalSpyCallbackSet set{begin, nullptr, nullptr, nullptr};
    qt_register_signal_spy_callbacks(&set);
}

}  // namespace recorder
