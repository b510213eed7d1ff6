// Sets each property that tells of its changes to the value that it has, twice, in each class that needs no argument: a line
// `CLASS.PROPERTY SIGNAL` for each that tells so all the same. Such a property doesn't compare.
#include <QtCore>
#include <QtGui>
#include <QtNetwork>
#include <QtWidgets>
#include <cstdio>

namespace {

// Counts what it is connected to, whatever its parameters.
struct Counter : QObject {
    int count = 0;
    int qt_metacall(QMetaObject::Call call, int id, void **given) override
    {
        const int own = QObject::qt_metacall(call, id, given);
        if (own < 0 || call != QMetaObject::InvokeMetaMethod)
            return own;
        ++count;
        return -1;
    }
};

// The value that it has, and another one of its type where one is known.
QList<QVariant> values(const QVariant &now)
{
    switch (now.typeId()) {
    case QMetaType::Int: return {now, now.toInt() + 1};
    case QMetaType::Bool: return {now, !now.toBool()};
    case QMetaType::Double: return {now, now.toDouble() + 1};
    case QMetaType::QString: return {now, QString("some")};
    case QMetaType::QDate: return {now, QDate(2024, 5, 6)};
    case QMetaType::QTime: return {now, QTime(3, 4)};
    case QMetaType::QDateTime: return {now, QDateTime(QDate(2024, 5, 6), QTime(3, 4))};
    case QMetaType::QSize: return {now, QSize(20, 30)};
    case QMetaType::QPointF: return {now, QPointF(2, 3)};
    case QMetaType::QFont: return {now, QFont("some", 33)};
    case QMetaType::QColor: return {now, QColor(Qt::red)};
    default: return {now};
    }
}

bool tellsAgain(QObject *object, const QMetaProperty &property)
{
    bool tells = false;
    for (const QVariant &value : values(property.read(object))) {
        property.write(object, value);
        const QVariant held = property.read(object);
        Counter counter;
        QMetaObject::connect(object, property.notifySignalIndex(), &counter, QObject::staticMetaObject.methodCount(), Qt::DirectConnection);
        property.write(object, held);
        property.write(object, held);
        tells = tells || counter.count > 0;
    }
    return tells;
}

void look(QObject *object)
{
    const QMetaObject *meta = object->metaObject();
    int looked = 0;
    for (int at = 0; at < meta->propertyCount(); ++at) {
        const QMetaProperty property = meta->property(at);
        if (!property.isWritable() || !property.hasNotifySignal() || !property.metaType().isValid())
            continue;
        ++looked;
        if (tellsAgain(object, property))
            std::printf("%s.%s %s\n", property.enclosingMetaObject()->className(), property.name(), property.notifySignal().name().constData());
    }
    std::printf("# %d properties of %s\n", looked, meta->className());
}

template <typename... Classes> void lookAtAll()
{
    (look(new Classes), ...);
}

} // namespace

int main(int argc, char **argv)
{
    QApplication application(argc, argv);
    look(&application);
    lookAtAll<QTimer, QPropertyAnimation, QVariantAnimation, QPauseAnimation, QSequentialAnimationGroup, QParallelAnimationGroup, QTimeLine,
              QSortFilterProxyModel, QIdentityProxyModel, QStringListModel, QTransposeProxyModel, QConcatenateTablesProxyModel,
              QItemSelectionModel>();
    lookAtAll<QStandardItemModel, QTextDocument, QAction, QUndoStack, QUndoGroup, QWindow, QIntValidator, QDoubleValidator,
              QRegularExpressionValidator, QFileSystemModel>();
    lookAtAll<QTcpSocket, QUdpSocket, QTcpServer, QNetworkAccessManager>();
    lookAtAll<QWidget, QPushButton, QToolButton, QCheckBox, QRadioButton, QLineEdit, QComboBox, QFontComboBox, QSpinBox, QDoubleSpinBox,
              QDateTimeEdit, QDateEdit, QTimeEdit, QSlider, QDial, QScrollBar, QProgressBar, QLCDNumber, QLabel, QTextEdit, QPlainTextEdit,
              QTextBrowser, QGroupBox, QTabWidget, QTabBar, QStackedWidget, QStackedLayout, QToolBox, QCalendarWidget, QKeySequenceEdit>();
    lookAtAll<QListWidget, QTreeWidget, QTableWidget, QListView, QTreeView, QTableView, QColumnView, QCompleter, QButtonGroup,
              QDialogButtonBox, QGraphicsScene, QGraphicsView, QGraphicsWidget, QGraphicsTextItem, QGraphicsRotation, QGraphicsScale,
              QGraphicsBlurEffect, QGraphicsColorizeEffect, QGraphicsDropShadowEffect, QGraphicsOpacityEffect, QMovie>();
    lookAtAll<QMainWindow, QDockWidget, QMdiArea, QMdiSubWindow, QStatusBar, QMenuBar, QMenu, QToolBar, QDialog, QColorDialog, QFontDialog,
              QFileDialog, QInputDialog, QMessageBox, QProgressDialog, QErrorMessage, QWizard, QWizardPage, QSplitter, QScrollArea, QFrame,
              QFocusFrame, QSplashScreen>();
    look(new QActionGroup(&application));
    look(new QShortcut(new QWidget));
    look(new QHeaderView(Qt::Horizontal));
    look(new QRubberBand(QRubberBand::Line));
    std::fflush(stdout);
    std::_Exit(0);
}
