// Calls of functions that run an event loop until something ends it, and of those whose effect comes from the event loop.
#include "registry.h"

namespace {

// Ends what runs: the window that pops up or is modal, as soon as it is there.
void endSoon()
{
    auto *timer = new QTimer(qApp);
    QObject::connect(timer, &QTimer::timeout, timer, [timer] {
        QWidget *it = QApplication::activePopupWidget();
        if (!it)
            it = QApplication::activeModalWidget();
        if (auto *dialog = qobject_cast<QDialog *>(it))
            dialog->done(0);
        else if (it)
            it->close();
        if (it)
            timer->deleteLater();
    });
    timer->start(1);
}

// What comes from here on is of the event loop, which runs for some time.
void afterwards(int milliseconds)
{
    recorder::later();
    QEventLoop loop;
    QTimer::singleShot(milliseconds, &loop, &QEventLoop::quit);
    loop.exec();
}

// The address of a file that this machine serves.
QUrl served(Scene &s)
{
    auto *server = s.other(new QTcpServer);
    server->listen(QHostAddress::LocalHost);
    QObject::connect(server, &QTcpServer::newConnection, server, [server] {
        QTcpSocket *to = server->nextPendingConnection();
        QObject::connect(to, &QTcpSocket::readyRead, to, [to] {
            to->write("HTTP/1.0 200 OK\r\nContent-Type: text/plain\r\nContent-Length: 4\r\n\r\ntext");
            to->disconnectFromHost();
        });
    });
    return QUrl(QString("http://127.0.0.1:%1/a").arg(server->serverPort()));
}

const QUrl nowhere("http://127.0.0.1:1/");

// Functions of classes that have no set-up of their own are called beside the application.
template <class Body> void beside(const char *cls, const char *function, Body body)
{
    call<QApplication>(cls, function, 9, body);
}

void callDialogs()
{
    CALL(QDialog, exec, QTimer::singleShot(20, &it, [dialog = &it] { dialog->done(0); }); it.exec();)
    CALL(QProgressDialog, setValue, { recorder::Pause quiet; it.setModal(true); } it.setValue(3);)
    CALL(QMenu, exec, endSoon(); it.exec(QPoint(20, 20));)
    // What the dialog does that a function makes for itself, no application sees: so it has no parent here.
    beside("QColorDialog", "getColor", [](QApplication &, Scene &) { endSoon(); QColorDialog::getColor(Qt::red); });
    beside("QFontDialog", "getFont", [](QApplication &, Scene &) { endSoon(); bool good; QFontDialog::getFont(&good); });
    beside("QFileDialog", "getExistingDirectory", [](QApplication &, Scene &) { endSoon(); QFileDialog::getExistingDirectory(); });
    beside("QFileDialog", "getExistingDirectoryUrl", [](QApplication &, Scene &) { endSoon(); QFileDialog::getExistingDirectoryUrl(); });
    beside("QFileDialog", "getOpenFileName", [](QApplication &, Scene &) { endSoon(); QFileDialog::getOpenFileName(); });
    beside("QFileDialog", "getOpenFileNames", [](QApplication &, Scene &) { endSoon(); QFileDialog::getOpenFileNames(); });
    beside("QFileDialog", "getOpenFileUrl", [](QApplication &, Scene &) { endSoon(); QFileDialog::getOpenFileUrl(); });
    beside("QFileDialog", "getOpenFileUrls", [](QApplication &, Scene &) { endSoon(); QFileDialog::getOpenFileUrls(); });
    beside("QFileDialog", "getSaveFileName", [](QApplication &, Scene &) { endSoon(); QFileDialog::getSaveFileName(); });
    beside("QFileDialog", "getSaveFileUrl", [](QApplication &, Scene &) { endSoon(); QFileDialog::getSaveFileUrl(); });
    beside("QInputDialog", "getDouble", [](QApplication &, Scene &) { endSoon(); QInputDialog::getDouble(nullptr, "a", "b"); });
    beside("QInputDialog", "getInt", [](QApplication &, Scene &) { endSoon(); QInputDialog::getInt(nullptr, "a", "b"); });
    beside("QInputDialog", "getItem", [](QApplication &, Scene &) { endSoon(); QInputDialog::getItem(nullptr, "a", "b", {"c", "d"}); });
    beside("QInputDialog", "getMultiLineText", [](QApplication &, Scene &) { endSoon(); QInputDialog::getMultiLineText(nullptr, "a", "b"); });
    beside("QInputDialog", "getText", [](QApplication &, Scene &) { endSoon(); QInputDialog::getText(nullptr, "a", "b"); });
    beside("QMessageBox", "about", [](QApplication &, Scene &) { endSoon(); QMessageBox::about(nullptr, "a", "b"); });
    beside("QMessageBox", "aboutQt", [](QApplication &, Scene &) { endSoon(); QMessageBox::aboutQt(nullptr); });
    beside("QMessageBox", "critical", [](QApplication &, Scene &) { endSoon(); QMessageBox::critical(nullptr, "a", "b"); });
    beside("QMessageBox", "information", [](QApplication &, Scene &) { endSoon(); QMessageBox::information(nullptr, "a", "b"); });
    beside("QMessageBox", "question", [](QApplication &, Scene &) { endSoon(); QMessageBox::question(nullptr, "a", "b"); });
    beside("QMessageBox", "warning", [](QApplication &, Scene &) { endSoon(); QMessageBox::warning(nullptr, "a", "b"); });
    beside("QApplication", "aboutQt", [](QApplication &, Scene &) {
        if (QApplication::activeWindow())
            return;
        endSoon();
        QApplication::aboutQt();
    });
}

void callLoops()
{
    CALL(QCoreApplication, exec, QTimer::singleShot(0, qApp, &QCoreApplication::quit); QCoreApplication::exec();)
    CALL(QCoreApplication, processEvents, QCoreApplication::processEvents();)
    CALL(QCoreApplication, sendPostedEvents, QCoreApplication::sendPostedEvents();)
    CALL(QCoreApplication, quit, QTimer::singleShot(0, qApp, &QCoreApplication::quit); recorder::later(); QCoreApplication::exec();)
    CALL(QCoreApplication, exit, QTimer::singleShot(0, qApp, [] { QCoreApplication::exit(3); }); recorder::later(); QCoreApplication::exec();)
    CALL(QCoreApplication, postEvent, QCoreApplication::postEvent(s.other(new QObject), new QEvent(QEvent::User));)
    CALL(QCoreApplication, sendEvent, QEvent event(QEvent::User); QCoreApplication::sendEvent(s.other(new QObject), &event);)
    beside("QEventLoop", "exec", [](QApplication &, Scene &) {
        QEventLoop loop;
        QTimer::singleShot(0, &loop, &QEventLoop::quit);
        loop.exec();
    });
    beside("QEventLoop", "processEvents", [](QApplication &, Scene &) { QEventLoop().processEvents(); });
}

void callTimes()
{
    CALL(QTimer, start, it.start(0); afterwards(20);)
    CALL(QTimer, callOnTimeout, it.callOnTimeout([] {}); it.start(0); afterwards(20);)
    CALL(QWidget, update, it.update(); afterwards(20);)
    CALL(QWindow, requestUpdate, it.requestUpdate(); afterwards(40);)
    CALL(QFileSystemWatcher, addPath, QTemporaryDir folder; it.addPath(folder.path()); QFile made(folder.filePath("a"));
         made.open(QIODevice::WriteOnly); made.close(); it.addPath(made.fileName()); made.open(QIODevice::Append); made.write("x"); made.close();
         afterwards(150);)
    CALL(QFileSystemWatcher, addPaths, QTemporaryDir folder; it.addPaths({folder.path()}); QFile made(folder.filePath("a"));
         made.open(QIODevice::WriteOnly); made.close(); it.addPaths({made.fileName()}); made.open(QIODevice::Append); made.write("x"); made.close();
         afterwards(150);)
    CALL(QProcess, kill, it.kill(); afterwards(200);)
    CALL(QProcess, terminate, it.terminate(); afterwards(200);)
    CALL(QProcess, start, it.start(QStandardPaths::findExecutable("true"), {}); afterwards(200);)
    CALL(QProcess, waitForStarted, { recorder::Pause quiet; it.start(QStandardPaths::findExecutable("cat"), {}); } it.waitForStarted(2000);)
    CALL(QProcess, waitForStarted, { recorder::Pause quiet; it.start("/nowhere/none", {}); } it.waitForStarted(2000);)
    CALL(QProcess, waitForBytesWritten, { recorder::Pause quiet; it.write("more\n"); } it.waitForBytesWritten(300);)
    CALL(QIODevice, write, if (it.isWritable()) it.write("text"); afterwards(50);)
    CALL(QAbstractAnimation, resume, it.resume(); afterwards(30);)
    CALL(QAbstractAnimation, start, it.start(); afterwards(30);)
    CALL(QTimeLine, start, it.setDuration(30); it.start(); afterwards(90);)
}

void callServers()
{
    CALL(QTcpServer, listen, it.close(); it.listen(QHostAddress::LocalHost); recorder::later();
         s.other(new QTcpSocket)->connectToHost(QHostAddress::LocalHost, it.serverPort()); afterwards(100);)
    CALL(QLocalServer, listen, it.close(); it.listen(QString("gammonfig-loops-%1").arg(QCoreApplication::applicationPid())); recorder::later();
         s.other(new QLocalSocket)->connectToServer(it.fullServerName()); afterwards(100);)
    CALL(QLocalServer, close, QLocalSocket to; { recorder::Pause quiet; to.connectToServer(it.fullServerName()); it.waitForNewConnection(500); }
         for (auto *each : it.findChildren<QLocalSocket *>()) s.other(each); it.close();)
    CALL(QLocalSocket, waitForConnected, { recorder::Pause quiet; it.connectToServer(it.serverName()); } it.waitForConnected(300);)
    CALL(QLocalSocket, waitForDisconnected, { recorder::Pause quiet; it.disconnectFromServer(); } it.waitForDisconnected(100);)
    CALL(QAbstractSocket, flush, { recorder::Pause quiet; it.write("text"); } it.flush();)
    CALL(QAbstractSocket, waitForBytesWritten, { recorder::Pause quiet; it.write("text"); } it.waitForBytesWritten(300);)
    CALL(QNetworkAccessManager, get, s.other(it.get(QNetworkRequest(served(s)))); afterwards(300);)
    CALL(QNetworkAccessManager, get, s.other(it.get(QNetworkRequest(nowhere))); afterwards(300);)
    CALL(QNetworkAccessManager, head, s.other(it.head(QNetworkRequest(served(s)))); afterwards(300);)
    CALL(QNetworkAccessManager, head, s.other(it.head(QNetworkRequest(nowhere))); afterwards(300);)
    CALL(QNetworkAccessManager, post, s.other(it.post(QNetworkRequest(served(s)), "text")); afterwards(300);)
    CALL(QNetworkAccessManager, post, s.other(it.post(QNetworkRequest(nowhere), "text")); afterwards(300);)
    CALL(QNetworkAccessManager, put, s.other(it.put(QNetworkRequest(served(s)), "text")); afterwards(300);)
    CALL(QNetworkAccessManager, put, s.other(it.put(QNetworkRequest(nowhere), "text")); afterwards(300);)
    CALL(QNetworkAccessManager, deleteResource, s.other(it.deleteResource(QNetworkRequest(served(s)))); afterwards(300);)
    CALL(QNetworkAccessManager, deleteResource, s.other(it.deleteResource(QNetworkRequest(nowhere))); afterwards(300);)
    CALL(QNetworkAccessManager, sendCustomRequest, s.other(it.sendCustomRequest(QNetworkRequest(served(s)), "PATCH", "text")); afterwards(300);)
    CALL(QNetworkAccessManager, sendCustomRequest, s.other(it.sendCustomRequest(QNetworkRequest(nowhere), "PATCH", "text")); afterwards(300);)
}

}  // namespace

void registerLoops()
{
    callDialogs();
    callLoops();
    callTimes();
    callServers();
}
