#include "poke.h"
#include <QtWidgets>

namespace {

QRandomGenerator &numbers()
{
    static QRandomGenerator made(quint32(qEnvironmentVariableIntValue("SPY_SEED")) + 1);
    return made;
}

int number(int below)
{
    return int(numbers().bounded(quint32(qMax(1, below))));
}

// What would end the program, wait for another one, or leave something on the disk.
bool left(const QString &text)
{
    static const QRegularExpression words("quit|exit|close all|print|open|save|about|browse|delete",
                                          QRegularExpression::CaseInsensitiveOption);
    return text.contains(words);
}

QList<QAction *> actionsOf(const QWidgetList &widgets)
{
    QList<QAction *> found;
    for (const QWidget *it : widgets)
        for (QAction *action : it->actions())
            if (action->isEnabled() && !action->menu() && !left(action->text()) && !found.contains(action))
                found << action;
    return found;
}

void key(QWidget *to)
{
    const bool end = number(8) == 0;
    const auto *line = qobject_cast<QLineEdit *>(to);
    const bool digits = line && qobject_cast<const QIntValidator *>(line->validator());
    const int at = number(digits ? 10 : 26);
    const int code = end ? int(Qt::Key_Return) : int(digits ? Qt::Key_0 : Qt::Key_A) + at;
    const QString text = end ? QString("\r") : QString(QChar((digits ? '0' : 'a') + at));
    const QPointer<QWidget> kept(to);
    to->setFocus();
    for (QEvent::Type type : {QEvent::KeyPress, QEvent::KeyRelease}) {
        QKeyEvent event(type, code, Qt::NoModifier, text);
        if (kept)
            QCoreApplication::sendEvent(kept, &event);
    }
}

void click(QWidget *on)
{
    const QPointF at(number(on->width()), number(on->height()));
    const QPointer<QWidget> kept(on);
    for (QEvent::Type type : {QEvent::MouseButtonPress, QEvent::MouseButtonRelease}) {
        QMouseEvent event(type, at, kept ? kept->mapToGlobal(at) : at, Qt::LeftButton,
                          type == QEvent::MouseButtonPress ? Qt::LeftButton : Qt::NoButton, Qt::NoModifier);
        if (kept)
            QCoreApplication::sendEvent(kept, &event);
    }
}

// A view goes to another item, and sometimes edits it: the editor is a widget like others.
void choose(QAbstractItemView *view)
{
    if (!view->model() || !view->model()->rowCount(view->rootIndex()))
        return;
    const QModelIndex at = view->model()->index(number(view->model()->rowCount(view->rootIndex())),
                                                number(view->model()->columnCount(view->rootIndex())), view->rootIndex());
    view->setCurrentIndex(at);
    if (number(3) == 0 && (at.flags() & Qt::ItemIsEditable) && view->editTriggers() != QAbstractItemView::NoEditTriggers)
        view->edit(at);
}

void askForMenu(QWidget *on)
{
    const QPoint at(number(on->width()), number(on->height()));
    QContextMenuEvent event(QContextMenuEvent::Mouse, at, on->mapToGlobal(at));
    QCoreApplication::sendEvent(on, &event);
}

// A menu that is open is left by an action of it, or without one.
void answer(QMenu *menu)
{
    const QList<QAction *> actions = menu->actions();
    QAction *one = actions.isEmpty() ? nullptr : actions.at(number(int(actions.size())));
    if (one && one->isEnabled() && !one->menu() && !left(one->text())) {
        menu->setActiveAction(one);
        QKeyEvent event(QEvent::KeyPress, Qt::Key_Return, Qt::NoModifier, "\r");
        QCoreApplication::sendEvent(menu, &event);
    } else {
        menu->close();
    }
}

void pokeAt(QWidget *it, bool modal)
{
    if (auto *button = qobject_cast<QAbstractButton *>(it)) {
        if (modal || !left(button->text()))
            button->click();
    } else if (auto *slider = qobject_cast<QAbstractSlider *>(it)) {
        slider->setValue(slider->minimum() + number(slider->maximum() - slider->minimum() + 1));
    } else if (auto *box = qobject_cast<QAbstractSpinBox *>(it)) {
        box->stepBy(number(7) - 3);
    } else if (auto *choice = qobject_cast<QComboBox *>(it)) {
        if (choice->count())
            choice->setCurrentIndex(number(choice->count()));
    } else if (auto *view = qobject_cast<QAbstractItemView *>(it)) {
        choose(view);
    } else if (auto *tabs = qobject_cast<QTabWidget *>(it)) {
        tabs->setCurrentIndex(number(tabs->count()));
    } else if (it->inherits("QLineEdit") || it->inherits("QTextEdit") || it->inherits("QPlainTextEdit")) {
        key(it);
    } else if (number(10) == 0) {
        askForMenu(it);
    } else {
        click(it);
    }
}

// Fields of which it is said what they hold, as the name of a peer in the network.
void fill(const QWidgetList &widgets)
{
    static const QStringList wanted = qEnvironmentVariable("SPY_FILL").split(';', Qt::SkipEmptyParts);
    for (const QString &one : wanted) {
        const QString name = one.section('=', 0, 0), value = one.section('=', 1);
        for (QWidget *it : widgets) {
            if (it->objectName() != name)
                continue;
            if (auto *line = qobject_cast<QLineEdit *>(it); line && line->text() != value)
                line->setText(value);
            else if (auto *box = qobject_cast<QSpinBox *>(it))
                box->setValue(value.toInt());
            else if (auto *choice = qobject_cast<QComboBox *>(it))
                choice->setCurrentText(value);
        }
    }
}

}  // namespace

void poke()
{
    if (!qobject_cast<QApplication *>(qApp))
        return;
    if (auto *menu = qobject_cast<QMenu *>(QApplication::activePopupWidget())) {
        answer(menu);
        return;
    }
    const QWidget *modal = QApplication::activeModalWidget();
    QWidgetList widgets;
    for (QWidget *it : QApplication::allWidgets())
        if (it->isVisible() && it->isEnabled() && (!modal || it->window() == modal))
            widgets << it;
    fill(widgets);
    const QList<QAction *> actions = modal ? QList<QAction *>() : actionsOf(widgets);
    if (!actions.isEmpty() && number(3) == 0)
        actions.at(number(int(actions.size())))->trigger();
    else if (!widgets.isEmpty())
        pokeAt(widgets.at(number(int(widgets.size()))), modal != nullptr);
}
