// Calls by hand: with arguments that matter, in an order that matters, or of what no header says.
#include "registry.h"

void registerMade();
void setUpInputs();
void setUpTexts();
void setUpModels();
void setUpProxies();
void setUpWindows();
void setUpCore();
void setUpChildren();
void setUpTold();
void registerLoops();
void registerPlaces();
void registerTold();

namespace {

void callInputs()
{
    CALL(QAbstractButton, click, it.click();)
    CALL(QLineEdit, setText, it.setText(it.text());)
    CALL(QLineEdit, setCursorPosition, it.setCursorPosition(3);)
    CALL(QLineEdit, setMaxLength, it.setMaxLength(2);)
    CALL(QLineEdit, setInputMask, it.setInputMask("999-99");)
    CALL(QComboBox, setCurrentText, it.setCurrentText("three");)
    CALL(QComboBox, insertItem, it.insertItem(0, "first");)
    CALL(QComboBox, removeItem, it.removeItem(it.currentIndex());)
    CALL(QSpinBox, setValue, it.setValue(3);)
    CALL(QSpinBox, setRange, it.setRange(1, 2);)
    CALL(QSpinBox, setMaximum, it.setMaximum(-3);)
    CALL(QSpinBox, setMinimum, it.setMinimum(7);)
    CALL(QDoubleSpinBox, setMaximum, it.setMaximum(-3);)
    CALL(QDoubleSpinBox, setMinimum, it.setMinimum(7);)
    CALL(QDoubleSpinBox, setRange, it.setRange(1, 2);)
    CALL(QAbstractSlider, setMaximum, it.setMaximum(-3);)
    CALL(QAbstractSlider, setMinimum, it.setMinimum(17);)
    CALL(QAbstractSlider, setRange, it.setRange(20, 30);)
    CALL(QAbstractSlider, setSliderPosition, it.setSliderDown(true); it.setSliderPosition(20);)
    CALL(QAbstractSlider, setSliderDown, it.setSliderDown(true); it.setSliderDown(false);)
    CALL(QAbstractSlider, setValue, it.setValue(it.maximum());)
    CALL(QAbstractSpinBox, stepUp, it.stepUp();)
    CALL(QAbstractButton, setDown, it.setDown(true);)
    CALL(QFontComboBox, setCurrentFont, it.setCurrentFont(QFont(it.itemText(it.count() - 1)));)
    CALL(QCalendarWidget, showSelectedDate, it.setCurrentPage(1999, 1); it.showSelectedDate();)
    CALL(QDateTimeEdit, setMinimumTime, it.setMinimumTime(QTime(12, 0));)
    CALL(QAbstractSlider, triggerAction, it.triggerAction(QAbstractSlider::SliderToMaximum);)
    CALL(QProgressBar, setRange, it.setRange(20, 30);)
    CALL(QLCDNumber, display, it.display(123456);)
    CALL(QCalendarWidget, setDateRange, it.setDateRange(QDate(2025, 1, 1), QDate(2025, 2, 1));)
    CALL(QCalendarWidget, setCurrentPage, it.setCurrentPage(2023, 1);)
    CALL(QDateTimeEdit, setDateRange, it.setDateRange(QDate(2025, 1, 1), QDate(2025, 2, 1));)
    CALL(QDateTimeEdit, setMaximumDate, it.setMaximumDate(QDate(2022, 1, 1));)
    CALL(QCompleter, setCompletionPrefix, it.setCompletionPrefix("so"); it.complete();)
    CALL(QCompleter, complete, it.setCompletionPrefix("so"); it.complete();)
    CALL(QDialogButtonBox, clear, it.clear();)
}

void callModels()
{
    CALL(QAbstractItemModel, insertRow, it.insertRow(1);)
    CALL(QAbstractItemModel, removeRow, it.removeRow(0);)
    CALL(QAbstractItemModel, insertColumn, it.insertColumn(0);)
    CALL(QAbstractItemModel, removeColumn, it.removeColumn(0);)
    CALL(QAbstractItemModel, setData, it.setData(it.index(0, 0), "new value");)
    CALL(QAbstractItemModel, setItemData, it.setItemData(it.index(0, 0), {{Qt::EditRole, "new value"}});)
    CALL(QAbstractItemModel, sort, it.sort(0, Qt::DescendingOrder);)
    CALL(QAbstractItemModel, insertRows, it.insertRows(0, 2);)
    CALL(QAbstractItemModel, removeRows, it.removeRows(0, 1);)
    CALL(QAbstractItemModel, insertColumns, it.insertColumns(0, 1);)
    CALL(QAbstractItemModel, removeColumns, it.removeColumns(0, 1);)
    CALL(QAbstractItemModel, moveRows, it.moveRows({}, 0, 1, {}, 2);)
    CALL(QAbstractItemModel, moveRow, it.moveRow({}, 0, {}, 2);)
    CALL(QAbstractItemModel, sort, it.sort(0, Qt::AscendingOrder); it.sort(0, Qt::DescendingOrder);)
    CALL(QStringListModel, setStringList, it.setStringList({"x"});)
    CALL(QSortFilterProxyModel, setFilterFixedString, it.setFilterFixedString("1");)
    CALL(QSortFilterProxyModel, setFilterRegularExpression, it.setFilterRegularExpression("2");)
    CALL(QSortFilterProxyModel, setFilterWildcard, it.setFilterWildcard("*2");)
    CALL(QSortFilterProxyModel, setFilterFixedString, it.setFilterFixedString("");)
    CALL(QItemSelectionModel, select, it.select(s.model->index(2, 0), QItemSelectionModel::ClearAndSelect);)
    CALL(QItemSelectionModel, setCurrentIndex, it.setCurrentIndex(s.model->index(2, 1), QItemSelectionModel::ClearAndSelect);)
    CALL(QItemSelectionModel, setCurrentIndex, it.setCurrentIndex(s.model->index(0, 0, s.model->index(1, 0)), QItemSelectionModel::NoUpdate);)
    CALL(QAbstractItemView, setCurrentIndex, if (s.model) it.setCurrentIndex(s.model->index(2, 1));)
    CALL(QAbstractItemView, edit, if (s.model) it.edit(s.model->index(0, 0));)
    CALL(QTreeView, setExpanded, if (s.model) it.setExpanded(s.model->index(0, 0), true);)
    CALL(QTreeView, setExpanded, if (s.model) it.setExpanded(s.model->index(0, 0), false);)
    CALL(QListWidget, takeItem, delete it.takeItem(0);)
    CALL(QListWidget, setCurrentRow, it.setCurrentRow(2);)
    CALL(QListWidgetItem, setCheckState, it.setCheckState(Qt::Checked);)
    CALL(QTableWidget, setCurrentCell, it.setCurrentCell(2, 1);)
    CALL(QTableWidget, setRowCount, it.setRowCount(5);)
    CALL(QTableWidget, sortItems, it.sortItems(0);)
    CALL(QTreeWidget, takeTopLevelItem, delete it.takeTopLevelItem(0);)
    CALL(QTreeWidget, sortItems, it.sortItems(0, Qt::AscendingOrder);)
    CALL(QTreeWidgetItem, addChild, it.addChild(new QTreeWidgetItem({"x"}));)
    CALL(QTreeWidgetItem, takeChild, delete it.takeChild(0);)
    CALL(QTreeWidgetItem, setExpanded, it.setExpanded(true);)
    CALL(QTreeWidgetItem, setCheckState, it.setCheckState(0, Qt::Checked);)
    CALL(QStandardItem, removeRow, it.removeRow(0);)
    CALL(QStandardItem, setCheckState, it.setCheckState(Qt::Checked);)
    CALL(QStandardItemModel, takeRow, qDeleteAll(it.takeRow(0));)
    CALL(QStandardItemModel, setItem, it.setItem(0, 1, new QStandardItem("new"));)
    CALL(QStandardItemModel, setItem, it.setItem(9, 9, new QStandardItem("new"));)
    CALL(QStandardItemModel, appendRow, it.appendRow(new QStandardItem("new"));)
    CALL(QHeaderView, moveSection, it.moveSection(0, 1);)
    CALL(QHeaderView, resizeSection, it.resizeSection(0, 77);)
}

void callTexts()
{
    CALL(QTextDocument, setModified, it.setModified(!it.isModified());)
    CALL(QTextDocument, undo, it.undo();)
    CALL(QTextDocument, redo, it.undo(); it.redo();)
    CALL(QTextEdit, redo, it.undo(); it.redo();)
    CALL(QPlainTextEdit, redo, it.undo(); it.redo();)
    CALL(QLineEdit, redo, it.undo(); it.redo();)
    CALL(QTextEdit, setTextCursor, auto cursor = it.textCursor(); cursor.movePosition(QTextCursor::End); it.setTextCursor(cursor);)
    CALL(QPlainTextEdit, setTextCursor, auto cursor = it.textCursor(); cursor.movePosition(QTextCursor::End); it.setTextCursor(cursor);)
    CALL(QTextEdit, paste, QGuiApplication::clipboard()->setText("x\ny"); it.paste();)
    CALL(QTextBrowser, setSource, it.setSource(QUrl("b.html"));)
    CALL(QTextBrowser, setSource, it.setSource(QUrl("#x"));)
    CALL(QTextCursor, endEditBlock, it.beginEditBlock(); it.insertText("x"); it.endEditBlock();)
    CALL(QTextEdit, selectAll, auto cursor = it.textCursor(); cursor.clearSelection(); it.setTextCursor(cursor); it.selectAll();)
    CALL(QPlainTextEdit, selectAll, auto cursor = it.textCursor(); cursor.clearSelection(); it.setTextCursor(cursor); it.selectAll();)
    CALL(QPlainTextEdit, setExtraSelections, it.setExtraSelections({{it.textCursor(), {}}});)
    CALL(QTextEdit, setExtraSelections, it.setExtraSelections({{it.textCursor(), {}}});)
    CALL(QTextEdit, append, it.append("<b>bold</b>");)
    CALL(QSyntaxHighlighter, rehighlightBlock, it.rehighlightBlock(it.document()->firstBlock());)
    CALL(QUndoStack, push, it.push(new QUndoCommand("text"));)
    CALL(QUndoStack, undo, it.undo(); it.undo();)
    CALL(QUndoStack, setIndex, it.setIndex(0);)
    CALL(QUndoStack, resetClean, it.resetClean();)
    CALL(QUndoStack, beginMacro, it.beginMacro("macro"); it.endMacro();)
    CALL(QUndoGroup, setActiveStack, it.setActiveStack(it.stacks().first());)
    CALL(QAction, setVisible, it.setVisible(false);)
    CALL(QClipboard, setMimeData, auto *data = new QMimeData; data->setText("text"); it.setMimeData(data);)
    CALL(QMovie, jumpToFrame, it.jumpToFrame(0); it.jumpToFrame(1);)
}

void callWindows()
{
    CALL(QTabWidget, addTab, it.addTab(s.argument(new QLineEdit, 1), "new");)
    CALL(QTabWidget, removeTab, if (it.count()) it.removeTab(0);)
    CALL(QTabWidget, setCurrentIndex, it.setCurrentIndex(2);)
    CALL(QTabBar, removeTab, it.removeTab(0);)
    CALL(QTabBar, moveTab, it.moveTab(0, 2);)
    CALL(QStackedWidget, removeWidget, if (it.count()) it.removeWidget(it.widget(0));)
    CALL(QStackedWidget, insertWidget, it.insertWidget(0, s.argument(new QLineEdit, 2));)
    CALL(QToolBox, removeItem, if (it.count()) it.removeItem(0);)
    CALL(QMainWindow, restoreState, auto state = it.saveState(); it.findChild<QDockWidget *>()->hide(); it.restoreState(state);)
    CALL(QMainWindow, removeDockWidget, it.removeDockWidget(it.findChild<QDockWidget *>());)
    CALL(QDockWidget, setFloating, it.setFloating(true);)
    CALL(QDockWidget, setFeatures, it.setFeatures(QDockWidget::NoDockWidgetFeatures);)
    CALL(QMdiArea, setActiveSubWindow, it.setActiveSubWindow(it.subWindowList().first());)
    CALL(QMenu, popup, it.popup(QPoint(20, 20));)
    CALL(QMenu, hide, it.popup(QPoint(20, 20)); it.hide();)
    CALL(QWizard, next, it.restart(); it.next();)
    CALL(QWizard, back, it.restart(); it.next(); it.back();)
    CALL(QDialog, open, it.open();)
    CALL(QDialog, accept, it.accept();)
    CALL(QProgressDialog, setValue, it.setValue(5);)
    CALL(QGraphicsScene, addItem, it.addItem(new QGraphicsRectItem(0, 0, 999, 999));)
    CALL(QGraphicsScene, removeItem, auto *item = s.keptItem<QGraphicsItem>(); it.removeItem(item); delete item;)
    CALL(QGraphicsScene, setSelectionArea, QPainterPath path; path.addRect(0, 0, 90, 90); it.setSelectionArea(path);)
    CALL(QGraphicsItem, setPos, it.setPos(7, 8);)
    CALL(QGraphicsItem, setSelected, it.setSelected(!it.isSelected());)
    CALL(QSplitter, setSizes, it.setSizes({10, 50, 40});)
    CALL(QWidget, setWindowState, it.setWindowState(Qt::WindowMaximized);)
    CALL(QWidget, render, QPixmap on(20, 20); it.render(&on);)
    CALL(QWidget, setGraphicsEffect, it.setGraphicsEffect(s.argument(new QGraphicsBlurEffect, 1));)
    CALL(QWidget, setVisible, it.setVisible(!it.isVisible());)
    CALL(QWidget, setEnabled, it.setEnabled(!it.isEnabled());)
    CALL(QGraphicsView, ensureVisible, it.resize(60, 60); it.ensureVisible(QRectF(400, 400, 9, 9));)
    CALL(QGraphicsView, centerOn, it.resize(60, 60); it.centerOn(400, 400);)
    CALL(QAbstractScrollArea, setViewport, it.setViewport(s.argument(new QWidget, 1));)
    CALL(QScrollArea, ensureVisible, it.ensureVisible(800, 800);)
    CALL(QScrollArea, setWidget, it.setWidget(s.argument(new QLineEdit, 1));)
    CALL(QTabBar, addTab, while (it.count()) it.removeTab(0); it.addTab("first");)
    CALL(QStackedLayout, addWidget, while (it.count()) it.removeWidget(it.widget(0)); it.addWidget(s.argument(new QLineEdit, 1));)
    CALL(QBoxLayout, addWidget, it.addWidget(s.argument(new QLineEdit, 1));)
    CALL(QGridLayout, addWidget, it.addWidget(s.argument(new QLineEdit, 1), 1, 1);)
    CALL(QFormLayout, addRow, it.addRow("text", s.argument(new QLineEdit, 2));)
    CALL(QFormLayout, removeRow, it.removeRow(0);)
    CALL(QMdiArea, closeAllSubWindows, it.closeAllSubWindows();)
    CALL(QDialogButtonBox, removeButton, it.removeButton(it.buttons().first());)
    CALL(QMainWindow, tabifyDockWidget, auto *dock = s.argument(new QDockWidget, 2); it.tabifyDockWidget(it.findChild<QDockWidget *>(), dock);)
    CALL(QGroupBox, setCheckable, it.setCheckable(true); it.setChecked(false); it.setCheckable(false); it.setCheckable(true);)
    CALL(QDataWidgetMapper, toPrevious, it.toLast(); it.toPrevious();)
    CALL(QDataWidgetMapper, toNext, it.toNext();)
    CALL(QDataWidgetMapper, toLast, it.toLast();)
    CALL(QDataWidgetMapper, submit, s.sibling->setText("other"); it.submit();)
}

void callCore()
{
    CALL(QObject, deleteLater, it.deleteLater();)
    CALL(QObject, setParent, if (!it.isWidgetType()) it.setParent(nullptr);)
    CALL(QWidget, setParent, it.setParent(nullptr);)
    CALL(QWidget, setParent, it.setParent(s.argument(new QWidget, 1));)
    CALL(QSignalMapper, map, it.map(s.sibling);)
    CALL(QProcess, waitForFinished, it.closeWriteChannel(); it.waitForFinished(1000);)
    CALL(QProcess, waitForStarted, it.waitForStarted(500);)
    CALL(QProcess, waitForReadyRead, it.waitForReadyRead(300);)
    CALL(QProcess, kill, it.kill();)
    CALL(QProcess, terminate, it.terminate();)
    CALL(QAbstractSocket, waitForReadyRead, it.waitForReadyRead(100);)
    CALL(QAbstractSocket, waitForDisconnected, it.disconnectFromHost(); it.waitForDisconnected(100);)
    CALL(QAbstractSocket, waitForConnected, it.connectToHost(QHostAddress::LocalHost, 1); it.waitForConnected(100);)
    CALL(QAbstractSocket, abort, it.abort();)
    CALL(QLocalSocket, abort, it.abort();)
    CALL(QLocalSocket, connectToServer, it.connectToServer();)
    CALL(QLocalSocket, waitForReadyRead, it.waitForReadyRead(100);)
    CALL(QNetworkAccessManager, get, s.other(it.get(QNetworkRequest(QUrl("data:text/plain,x"))));)
    CALL(QNetworkReply, abort, it.abort();)
    CALL(QUdpSocket, writeDatagram, it.writeDatagram("x", it.localAddress(), it.localPort());)
    CALL(QTimeLine, setCurrentTime, it.setCurrentTime(900);)
    CALL(QAbstractAnimation, setCurrentTime, it.setCurrentTime(900);)
    CALL(QAbstractAnimation, setCurrentTime, it.setCurrentTime(99999);)
    CALL(QAbstractAnimation, start, it.start(QAbstractAnimation::DeleteWhenStopped); it.stop();)
    CALL(QAnimationGroup, takeAnimation, delete it.takeAnimation(0);)
    CALL(QThread, quit, it.quit(); it.wait();)
    CALL(QBuffer, close, it.close();)
    CALL(QCoreApplication, setApplicationName, QCoreApplication::setApplicationName("other");)
    CALL(QCoreApplication, setApplicationVersion, QCoreApplication::setApplicationVersion("7");)
    CALL(QCoreApplication, setOrganizationName, QCoreApplication::setOrganizationName("other");)
    CALL(QCoreApplication, setOrganizationDomain, QCoreApplication::setOrganizationDomain("other.example");)
    CALL(QGuiApplication, setApplicationDisplayName, QGuiApplication::setApplicationDisplayName("shown");)
    CALL(QGuiApplication, setLayoutDirection, QGuiApplication::setLayoutDirection(Qt::RightToLeft);)
    CALL(QGuiApplication, setPalette, QGuiApplication::setPalette(QPalette(Qt::green));)
    CALL(QApplication, setPalette, QApplication::setPalette(QPalette(Qt::red));)
    CALL(QApplication, setFont, QFont font; font.setPointSize(23); QApplication::setFont(font);)
    CALL(QApplication, setStyle, QApplication::setStyle("windows");)
    CALL(QApplication, setStyleSheet, it.setStyleSheet("QWidget { color: red; }");)
    CALL(QApplication, setActiveWindow, QApplication::setActiveWindow(s.window);)
    CALL(QApplication, closeAllWindows, QApplication::closeAllWindows();)
    CALL(QIODevice, write, if (it.isWritable()) it.write("text");)
    CALL(QIODevice, putChar, if (it.isWritable()) it.putChar('x');)
    CALL(QIODevice, read, if (it.isReadable()) it.read(3);)
    CALL(QIODevice, peek, if (it.isReadable()) it.peek(3);)
    CALL(QIODevice, skip, if (it.isReadable()) it.skip(3);)
    CALL(QIODevice, getChar, if (it.isReadable()) { char one; it.getChar(&one); })
    CALL(QIODevice, readLine, if (it.isReadable()) it.readLine(3);)
    CALL(QIODevice, readAll, if (it.isReadable()) it.readAll();)
}

}  // namespace

void registerAll()
{
    setUpInputs();
    setUpTexts();
    setUpModels();
    setUpProxies();
    setUpWindows();
    setUpCore();
    setUpChildren();
    setUpTold();
    callInputs();
    callModels();
    callTexts();
    callWindows();
    callCore();
    registerLoops();
    registerPlaces();
    registerTold();
    registerMade();
}
