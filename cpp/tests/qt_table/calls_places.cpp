// Calls of functions by which one object takes the place of another, and of those by which objects change their owner.
#include "registry.h"

namespace {

// A document that a plain editor can show.
QTextDocument *plainDocument(QObject *owner)
{
    auto *made = new QTextDocument(owner);
    made->setDocumentLayout(new QPlainTextDocumentLayout(made));
    return made;
}

void callBars()
{
    CALL(QAbstractScrollArea, setHorizontalScrollBar, it.setHorizontalScrollBar(s.other(new QScrollBar)); it.setHorizontalScrollBar(s.argument(new QScrollBar, 1));)
    CALL(QAbstractScrollArea, setVerticalScrollBar, it.setVerticalScrollBar(s.other(new QScrollBar)); it.setVerticalScrollBar(s.argument(new QScrollBar, 1));)
    CALL(QAbstractScrollArea, setViewport, it.setViewport(s.other(new QWidget)); it.setViewport(s.argument(new QWidget, 1));)
    CALL(QTableView, setHorizontalHeader, it.setHorizontalHeader(s.other(new QHeaderView(Qt::Horizontal))); it.setHorizontalHeader(s.argument(new QHeaderView(Qt::Horizontal), 1));)
    CALL(QTableView, setVerticalHeader, it.setVerticalHeader(s.other(new QHeaderView(Qt::Vertical))); it.setVerticalHeader(s.argument(new QHeaderView(Qt::Vertical), 1));)
    CALL(QTreeView, setHeader, it.setHeader(s.other(new QHeaderView(Qt::Horizontal))); it.setHeader(s.argument(new QHeaderView(Qt::Horizontal), 1));)
    CALL(QMainWindow, setMenuBar, it.setMenuBar(s.other(new QMenuBar)); it.setMenuBar(s.argument(new QMenuBar, 1));)
    CALL(QMainWindow, setStatusBar, it.setStatusBar(s.other(new QStatusBar)); it.setStatusBar(s.argument(new QStatusBar, 1));)
    CALL(QMainWindow, addToolBar, it.addToolBar(Qt::LeftToolBarArea, s.argument(new QToolBar, 2));)
    CALL(QMainWindow, addDockWidget, it.addDockWidget(Qt::LeftDockWidgetArea, s.argument(new QDockWidget, 2));)
    CALL(QDialogButtonBox, clear, s.other(it.addButton("new", QDialogButtonBox::ActionRole)); it.clear();)
    CALL(QDialogButtonBox, removeButton, it.removeButton(s.argument(it.buttons().first(), 1));)
}

void callShown()
{
    CALL(QAbstractItemView, setIndexWidget, if (s.model) { it.setIndexWidget(s.model->index(0, 0), s.other(new QWidget));
         it.setIndexWidget(s.model->index(0, 0), s.argument(new QWidget, 2)); })
    CALL(QListWidget, removeItemWidget, { recorder::Pause quiet; it.setItemWidget(it.item(0), s.other(new QWidget)); } it.removeItemWidget(it.item(0));)
    CALL(QTableWidget, removeCellWidget, { recorder::Pause quiet; it.setCellWidget(0, 0, s.other(new QWidget)); } it.removeCellWidget(0, 0);)
    CALL(QTreeWidget, removeItemWidget, { recorder::Pause quiet; it.setItemWidget(it.topLevelItem(0), 0, s.other(new QWidget)); } it.removeItemWidget(it.topLevelItem(0), 0);)
    CALL(QComboBox, setLineEdit, it.setEditable(true); it.setLineEdit(s.other(new QLineEdit)); it.setLineEdit(s.argument(new QLineEdit, 1));)
    CALL(QComboBox, setView, it.setView(s.other(new QListView)); it.setView(s.argument(new QListView, 1));)
    CALL(QComboBox, setModel, it.setModel(s.other(new QStandardItemModel(1, 1, &it))); it.setModel(s.argument(new QStandardItemModel(2, 1), 1));)
    CALL(QCompleter, setModel, it.setModel(s.other(new QStandardItemModel(1, 1, &it))); it.setModel(s.argument(new QStandardItemModel(2, 1), 1));)
    CALL(QCompleter, setPopup, it.setPopup(s.other(new QListView)); it.setPopup(s.argument(new QListView, 1));)
    CALL(QTextEdit, setDocument, it.setDocument(s.other(new QTextDocument(&it))); it.setDocument(s.argument(new QTextDocument, 1));)
    CALL(QPlainTextEdit, setDocument, it.setDocument(s.other(plainDocument(&it))); it.setDocument(s.argument(plainDocument(nullptr), 1));)
    CALL(QWidget, setGraphicsEffect, it.setGraphicsEffect(s.other(new QGraphicsBlurEffect)); it.setGraphicsEffect(s.argument(new QGraphicsBlurEffect, 1));)
    CALL(QMdiArea, removeSubWindow, it.removeSubWindow(s.argument(it.subWindowList().first(), 1));)
    CALL(QLayout, replaceWidget, if (it.count() && it.itemAt(0)->widget()) delete it.replaceWidget(it.itemAt(0)->widget(), s.argument(new QLineEdit, 2));)
    CALL(QLayout, setMenuBar, it.setMenuBar(s.argument(new QMenuBar, 1));)
}

void callOthers()
{
    CALL(QNetworkAccessManager, setCookieJar, it.setCookieJar(s.other(new QNetworkCookieJar)); it.setCookieJar(s.argument(new QNetworkCookieJar, 1));)
    CALL(QNetworkAccessManager, setCache, it.setCache(s.other(new QNetworkDiskCache)); it.setCache(s.argument(new QNetworkDiskCache, 1));)
    CALL(QAnimationGroup, removeAnimation, it.removeAnimation(s.argument(it.animationAt(0), 1));)
    CALL(QAbstractAnimation, stop, { recorder::Pause quiet; it.start(QAbstractAnimation::DeleteWhenStopped); } it.stop();)
    CALL(QObject, setParent, if (!it.isWidgetType() && !qobject_cast<QLayout *>(&it)) it.setParent(s.argument(new QObject, 1));)
    CALL(QWidget, setParent, it.setParent(s.argument(new QWidget, 1), Qt::Window);)
    CALL(QWidget, clearFocus, { recorder::Pause quiet; it.setFocusPolicy(Qt::StrongFocus); it.setFocusProxy(nullptr); it.setFocus(); } it.clearFocus();)
    CALL(QApplication, closeAllWindows, QApplication::closeAllWindows();)
}

}  // namespace

void registerPlaces()
{
    callBars();
    callShown();
    callOthers();
}
