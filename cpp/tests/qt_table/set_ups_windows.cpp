// Set-ups of widgets that hold others, layouts, windows, dialogs, menus and scenes.
#include "registry.h"

namespace {

class Page : public QWizardPage
{
public:
    void initializePage() override { recorder::calledOf("QWizardPage", "initializePage"); }
    void cleanupPage() override { recorder::calledOf("QWizardPage", "cleanupPage"); }
    bool validatePage() override { recorder::calledOf("QWizardPage", "validatePage"); return true; }
    int nextId() const override { recorder::calledOf("QWizardPage", "nextId"); return QWizardPage::nextId(); }
    bool isComplete() const override { recorder::calledOf("QWizardPage", "isComplete"); return true; }
};

class Wizard : public QWizard
{
public:
    void initializePage(int id) override { recorder::called("initializePage"); QWizard::initializePage(id); }
    void cleanupPage(int id) override { recorder::called("cleanupPage"); QWizard::cleanupPage(id); }
    bool validateCurrentPage() override { recorder::called("validateCurrentPage"); return QWizard::validateCurrentPage(); }
    int nextId() const override { recorder::called("nextId"); return QWizard::nextId(); }
    void done(int result) override { recorder::called("done"); QWizard::done(result); }
    void reject() override { recorder::called("reject"); QWizard::reject(); }
};

class Dialog : public QDialog
{
public:
    void done(int result) override { recorder::called("done"); QDialog::done(result); }
    void accept() override { recorder::called("accept"); QDialog::accept(); }
    void reject() override { recorder::called("reject"); QDialog::reject(); }
    void setVisible(bool on) override { recorder::called("setVisible"); QDialog::setVisible(on); }
};

class Widget : public QWidget
{
public:
    void setVisible(bool on) override { recorder::called("setVisible"); QWidget::setVisible(on); }
};

class Tabs : public QTabWidget
{
public:
    void tabInserted(int) override { recorder::called("tabInserted"); }
    void tabRemoved(int) override { recorder::called("tabRemoved"); }
};

class Bar : public QTabBar
{
public:
    void tabInserted(int) override { recorder::called("tabInserted"); }
    void tabRemoved(int) override { recorder::called("tabRemoved"); }
    void tabLayoutChange() override { recorder::called("tabLayoutChange"); }
};

class Toolbox : public QToolBox
{
public:
    void itemInserted(int) override { recorder::called("itemInserted"); }
    void itemRemoved(int) override { recorder::called("itemRemoved"); }
};

class Item : public QGraphicsRectItem
{
public:
    Item() : QGraphicsRectItem(0, 0, 9, 9) { setFlags(ItemIsSelectable | ItemIsMovable | ItemSendsGeometryChanges | ItemIsFocusable); }
    QVariant itemChange(GraphicsItemChange change, const QVariant &value) override
    {
        recorder::called("itemChange");
        return QGraphicsRectItem::itemChange(change, value);
    }
    void focusInEvent(QFocusEvent *) override { recorder::called("focusInEvent"); }
    void focusOutEvent(QFocusEvent *) override { recorder::called("focusOutEvent"); }
};

// As an item of which it is told what a scene calls.
class Told : public QGraphicsRectItem
{
public:
    Told() : QGraphicsRectItem(0, 0, 9, 9) { setFlags(ItemIsFocusable); }
    void focusInEvent(QFocusEvent *) override { recorder::calledOf("QGraphicsItem", "focusInEvent"); }
    void focusOutEvent(QFocusEvent *) override { recorder::calledOf("QGraphicsItem", "focusOutEvent"); }
    QVariant itemChange(GraphicsItemChange change, const QVariant &value) override
    {
        recorder::calledOf("QGraphicsItem", "itemChange");
        return QGraphicsRectItem::itemChange(change, value);
    }
};

class View : public QGraphicsView
{
public:
    using QGraphicsView::QGraphicsView;
    void scrollContentsBy(int x, int y) override { recorder::called("scrollContentsBy"); QGraphicsView::scrollContentsBy(x, y); }
};

template <class T> T *pages(Scene &s)
{
    auto *it = new T;
    for (int page = 0; page < 3; ++page)
        it->addWidget(s.other(new QLineEdit));
    return it;
}

template <class T> T *tabs(Scene &s)
{
    auto *it = new T;
    for (const char *name : {"a", "b", "c"})
        it->addTab(s.other(new QLineEdit), name);
    return it;
}

QGraphicsScene *scene(Scene &s)
{
    auto *it = new QGraphicsScene(0, 0, 500, 500);
    auto *item = new Item;
    it->addItem(item);
    item->setSelected(true);
    s.item<QGraphicsItem>(item);
    auto *text = it->addText("text");
    text->setTextInteractionFlags(Qt::TextEditorInteraction);
    s.other(text);
    return it;
}

// An item with the focus of its scene, which is active.
QGraphicsItem *focused(QGraphicsScene &scene)
{
    QEvent on(QEvent::WindowActivate);
    QCoreApplication::sendEvent(&scene, &on);
    auto *item = new Told;
    scene.addItem(item);
    item->setFocus();
    return item;
}

QGraphicsScene *active(Scene &s)
{
    auto *it = s.other(scene(s));
    focused(*it);
    return it;
}

QMainWindow *mainWindow(Scene &s)
{
    auto *it = new QMainWindow;
    it->setCentralWidget(s.other(new QLineEdit));
    it->addDockWidget(Qt::LeftDockWidgetArea, s.other(new QDockWidget("dock")));
    it->addToolBar(s.other(new QToolBar("tools")));
    s.other(it->menuBar()->addMenu("menu"));
    it->statusBar()->showMessage("message");
    return it;
}

void setUpDialogs()
{
    SET_UP(QDialog, "plain", auto *it = new Dialog; s.other(new QLineEdit(it)); return it;)
    SET_UP(QDialog, "deleted on close", auto *it = new Dialog; it->setAttribute(Qt::WA_DeleteOnClose); return it;)
    SET_UP(QMessageBox, "two buttons", auto *it = new QMessageBox(QMessageBox::Question, "title", "text",
           QMessageBox::Ok | QMessageBox::Cancel); return it;)
    SET_UP(QFileDialog, "Qt's own", auto *it = new QFileDialog; it->setOption(QFileDialog::DontUseNativeDialog); return it;)
    SET_UP(QColorDialog, "Qt's own", auto *it = new QColorDialog; it->setOption(QColorDialog::DontUseNativeDialog); return it;)
    SET_UP(QFontDialog, "Qt's own", auto *it = new QFontDialog; it->setOption(QFontDialog::DontUseNativeDialog); return it;)
    SET_UP(QInputDialog, "of a text", auto *it = new QInputDialog; it->setTextValue("before"); return it;)
    SET_UP(QInputDialog, "of a number", auto *it = new QInputDialog; it->setInputMode(QInputDialog::IntInput); it->setIntValue(9); return it;)
    SET_UP(QProgressDialog, "half done", auto *it = new QProgressDialog("label", "Cancel", 0, 5); it->setMinimumDuration(0);
           it->setValue(1); return it;)
    SET_UP(QErrorMessage, "plain", return new QErrorMessage;)
    SET_UP(QWizard, "at its first page", auto *it = new Wizard; it->addPage(s.other(new Page)); it->addPage(s.other(new Page)); return it;)
    SET_UP(QWizard, "at its second page", auto *it = new Wizard; it->addPage(s.other(new Page)); it->addPage(s.other(new Page));
           it->restart(); it->next(); return it;)
    SET_UP(QWizardPage, "of a wizard", auto *it = s.other(new Wizard); auto *page = new Page; it->addPage(page); return page;)
}

void setUpLayouts()
{
    SET_UP(QVBoxLayout, "of a widget", auto *it = s.other(new QWidget); auto *made = new QVBoxLayout(it);
           made->addWidget(s.other(new QLineEdit)); return made;)
    SET_UP(QGridLayout, "of a widget", auto *it = s.other(new QWidget); auto *made = new QGridLayout(it);
           made->addWidget(s.other(new QLineEdit), 0, 0); return made;)
    SET_UP(QFormLayout, "of a widget", auto *it = s.other(new QWidget); auto *made = new QFormLayout(it);
           made->addRow("label", s.other(new QLineEdit)); return made;)
    SET_UP(QStackedLayout, "of a widget", auto *it = s.other(new QWidget); auto *made = new QStackedLayout(it);
           for (int page = 0; page < 3; ++page) made->addWidget(s.other(new QLineEdit)); return made;)
}

void setUpGraphics()
{
    SET_UP(QGraphicsScene, "two items", return scene(s);)
    CALL(QGraphicsScene, addItem, it.addItem(new Told);)
    CALL(QGraphicsScene, removeItem, auto *item = new Told; { recorder::Pause quiet; it.addItem(item); } it.removeItem(item); delete item;)
    SET_UP(QGraphicsScene, "with a view", auto *it = scene(s); s.other(new QGraphicsView(it)); return it;)
    SET_UP(QGraphicsView, "on a scene", return new View(s.other(scene(s)));)
    SET_UP(QGraphicsItem, "of a scene", auto *it = s.other(scene(s)); auto *item = new Item; it->addItem(item);
           return static_cast<QGraphicsItem *>(item);)
    SET_UP(QGraphicsItem, "selected, with focus", auto *it = s.other(scene(s)); QEvent on(QEvent::WindowActivate);
           QCoreApplication::sendEvent(it, &on); auto *item = new Item; it->addItem(item); item->setSelected(true);
           item->setFocus(); return static_cast<QGraphicsItem *>(item);)
    SET_UP(QGraphicsItem, "beside one with focus", auto *it = active(s); auto *item = new Item; it->addItem(item);
           return static_cast<QGraphicsItem *>(item);)
    SET_UP(QGraphicsItem, "around one with focus", auto *it = active(s); auto *item = new Item; it->addItem(item);
           it->focusItem()->setParentItem(item); return static_cast<QGraphicsItem *>(item);)
    CALL(QGraphicsScene, setFocusItem, QGraphicsItem *item = nullptr; { recorder::Pause quiet; focused(it); item = new Told; it.addItem(item); }
         it.setFocusItem(item);)
    CALL(QGraphicsScene, removeItem, QGraphicsItem *item = nullptr; { recorder::Pause quiet; item = focused(it); } it.removeItem(item);
         delete item;)
    SET_UP(QGraphicsTextItem, "of a scene", auto *it = s.other(scene(s)); return it->addText("other text");)
    SET_UP(QGraphicsWidget, "of a scene", auto *it = s.other(scene(s)); auto *made = new QGraphicsWidget; it->addItem(made); return made;)
    SET_UP(QGraphicsProxyWidget, "of a scene", auto *it = s.other(scene(s)); return it->addWidget(new QLineEdit);)
    SET_UP(QGraphicsBlurEffect, "of a widget", auto *it = new QGraphicsBlurEffect; s.sibling->setGraphicsEffect(it); return it;)
    SET_UP(QGraphicsOpacityEffect, "plain", return new QGraphicsOpacityEffect;)
    SET_UP(QGraphicsDropShadowEffect, "plain", return new QGraphicsDropShadowEffect;)
    SET_UP(QGraphicsColorizeEffect, "plain", return new QGraphicsColorizeEffect;)
    SET_UP(QGraphicsRotation, "plain", return new QGraphicsRotation;)
    SET_UP(QGraphicsScale, "plain", return new QGraphicsScale;)
}

}  // namespace

void setUpWindows()
{
    SET_UP(QWidget, "in a window", auto *it = new Widget; s.other(new QLineEdit(it)); return it;)
    SET_UP(QWidget, "a window", auto *it = new Widget; it->setWindowFlag(Qt::Window); s.other(new QLineEdit(it)); return it;)
    SET_UP(QWidget, "with a layout", auto *it = new Widget; auto *box = new QVBoxLayout(it); box->addWidget(s.other(new QLineEdit(it))); return it;)
    SET_UP(QWidget, "deleted on close", auto *it = new Widget; it->setWindowFlag(Qt::Window); it->setAttribute(Qt::WA_DeleteOnClose); return it;)
    SET_UP(QFrame, "plain", return new QFrame;)
    SET_UP(QTabWidget, "three tabs", return tabs<Tabs>(s);)
    SET_UP(QTabWidget, "empty", return new Tabs;)
    SET_UP(QTabBar, "three tabs", auto *it = new Bar; for (const char *name : {"a", "b", "c"}) it->addTab(name); return it;)
    SET_UP(QStackedWidget, "three pages", return pages<QStackedWidget>(s);)
    SET_UP(QStackedWidget, "empty", return new QStackedWidget;)
    SET_UP(QToolBox, "three pages", auto *it = new Toolbox; for (const char *name : {"a", "b", "c"}) it->addItem(s.other(new QLineEdit), name); return it;)
    SET_UP(QToolBox, "empty", return new Toolbox;)
    SET_UP(QSplitter, "three parts", return pages<QSplitter>(s);)
    SET_UP(QScrollArea, "with a widget", auto *it = new QScrollArea; auto *inner = s.other(new QWidget); inner->resize(900, 900);
           it->setWidget(inner); return it;)
    SET_UP(QMainWindow, "filled", return mainWindow(s);)
    SET_UP(QDockWidget, "of a main window", auto *it = s.other(mainWindow(s)); return it->findChild<QDockWidget *>();)
    SET_UP(QToolBar, "of a main window", auto *it = s.other(mainWindow(s)); auto *bar = it->findChild<QToolBar *>();
           s.other(bar->addAction("act")); return bar;)
    SET_UP(QMenuBar, "of a main window", auto *it = s.other(mainWindow(s)); return it->menuBar();)
    SET_UP(QStatusBar, "of a main window", auto *it = s.other(mainWindow(s)); return it->statusBar();)
    SET_UP(QMenu, "two actions", auto *it = new QMenu; s.other(it->addAction("a")); s.other(it->addMenu("below")); return it;)
    SET_UP(QMdiArea, "two windows", auto *it = new QMdiArea; s.other(it->addSubWindow(s.other(new QLineEdit)));
           s.other(it->addSubWindow(s.other(new QLineEdit))); return it;)
    SET_UP(QMdiSubWindow, "of an area", auto *it = s.other(new QMdiArea); s.other(it->addSubWindow(s.other(new QLineEdit)));
           return it->addSubWindow(s.other(new QLineEdit));)
    SET_UP(QSystemTrayIcon, "plain", return new QSystemTrayIcon;)
    SET_UP(QRubberBand, "plain", return new QRubberBand(QRubberBand::Line);)
    SET_UP(QSizeGrip, "plain", return new QSizeGrip(s.window);)
    SET_UP(QSplashScreen, "plain", return new QSplashScreen(QPixmap(9, 9));)
    SET_UP(QFocusFrame, "plain", auto *it = new QFocusFrame; it->setWidget(s.sibling); return it;)
    SET_UP(QWidgetAction, "plain", return new QWidgetAction(nullptr);)
    setUpDialogs();
    setUpLayouts();
    setUpGraphics();
}
