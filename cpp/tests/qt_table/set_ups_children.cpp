// Set-ups around a widget of the application that has the focus, with their own virtual functions seen: so what each widget does is seen
// on those too whose lines say it again.
#include "registry.h"

namespace {

template <class T> class Seen : public T
{
public:
    using T::T;
    void setVisible(bool to) override
    {
        recorder::called("setVisible");
        T::setVisible(to);
    }
};

template <class T> T *around(Scene &s, T *it)
{
    auto *child = s.other(new QLineEdit(it));
    child->setGeometry(0, 0, 20, 20);
    child->setFocus();
    it->setAttribute(Qt::WA_DeleteOnClose);
    it->setFocusPolicy(Qt::StrongFocus);
    it->setFocusProxy(child);
    return it;
}

// What only those below may call is public here.
class Splitter : public QSplitter
{
public:
    using QSplitter::moveSplitter;
};

template <class T> class Margins : public T
{
public:
    using T::setViewportMargins;
};

void setUpDialogs()
{
    SET_UP(QColorDialog, "around a child", return around(s, new Seen<QColorDialog>);)
    SET_UP(QFontDialog, "around a child", return around(s, new Seen<QFontDialog>);)
    SET_UP(QInputDialog, "around a child", return around(s, new Seen<QInputDialog>);)
    SET_UP(QFileDialog, "around a child", return around(s, new Seen<QFileDialog>);)
    SET_UP(QMessageBox, "around a child", return around(s, new Seen<QMessageBox>);)
    SET_UP(QWizard, "around a child", auto *it = new Seen<QWizard>; it->addPage(new QWizardPage); return around(s, it);)
    SET_UP(QMainWindow, "around a child", return around(s, new Seen<QMainWindow>);)
    SET_UP(QMdiSubWindow, "around a child", auto *area = s.other(new QMdiArea); auto *it = around(s, new Seen<QMdiSubWindow>);
           area->addSubWindow(it); return it;)
    SET_UP(QMenu, "around a child", auto *it = new Seen<QMenu>; it->addAction("a"); return around(s, it);)
    SET_UP(QSplashScreen, "around a child", return around(s, new Seen<QSplashScreen>(QPixmap(40, 40)));)
}

}  // namespace

void setUpChildren()
{
    SET_UP(QCalendarWidget, "around a child", return around(s, new Seen<QCalendarWidget>);)
    SET_UP(QComboBox, "around a child", auto *it = new Seen<QComboBox>; it->addItems({"one", "two"}); return around(s, it);)
    SET_UP(QSpinBox, "around a child", return around(s, new Seen<QSpinBox>);)
    SET_UP(QTabBar, "around a child", auto *it = new Seen<QTabBar>; it->addTab("one"); it->addTab("two"); return around(s, it);)
    SET_UP(QTabWidget, "around a child", auto *it = new Seen<QTabWidget>; it->addTab(new QWidget, "one"); return around(s, it);)
    SET_UP(QHeaderView, "around a child", auto *it = new Seen<QHeaderView>(Qt::Horizontal); return around(s, it);)
    SET_UP(QMenuBar, "around a child", auto *it = new Seen<QMenuBar>; it->addMenu("one"); return around(s, it);)
    SET_UP(QStackedWidget, "around a child", auto *it = new Seen<QStackedWidget>; it->addWidget(new QWidget); return around(s, it);)
    SET_UP(QFocusFrame, "around a child", return around(s, new Seen<QFocusFrame>);)
    SET_UP(QRubberBand, "around a child", return around(s, new Seen<QRubberBand>(QRubberBand::Rectangle));)
    SET_UP(QTreeView, "around a child", return around(s, new Seen<QTreeView>);)
    SET_UP(QFontComboBox, "over a model of items", auto *it = new QFontComboBox; it->setModel(new QStandardItemModel(2, 1, it)); return it;)
    SET_UP(QDateEdit, "that shows a time too", auto *it = new QDateEdit(QDate(2024, 3, 4)); it->setDisplayFormat("yyyy-MM-dd hh:mm"); return it;)
    SET_UP(QTimeEdit, "that shows a date too", auto *it = new QTimeEdit(QTime(10, 11)); it->setDisplayFormat("yyyy-MM-dd hh:mm"); return it;)
    SET_UP(QSplitter, "whose handles are moved", auto *it = new Splitter; it->resize(90, 30); it->addWidget(s.other(new QLineEdit));
           it->addWidget(s.other(new QLineEdit)); return it;)
    call<Splitter>("QSplitter", "moveSplitter", 9, [](Splitter &it, Scene &) { it.moveSplitter(60, 1); });
    SET_UP(QScrollArea, "whose margins are set", return new Margins<QScrollArea>;)
    call<Margins<QScrollArea>>("QAbstractScrollArea", "setViewportMargins", 9, [](auto &it, Scene &) { it.setViewportMargins(9, 9, 9, 9); });
    SET_UP(QPlainTextEdit, "whose margins are set", return new Margins<QPlainTextEdit>;)
    call<Margins<QPlainTextEdit>>("QAbstractScrollArea", "setViewportMargins", 9, [](auto &it, Scene &) { it.setViewportMargins(9, 9, 9, 9); });
    setUpDialogs();
}
