// Set-ups of QtCore's classes that have no window, and of QtNetwork's: on this machine's own address alone.
#include "registry.h"
#include <algorithm>

namespace {

class Animation : public QVariantAnimation
{
public:
    Animation()
    {
        setStartValue(0);
        setEndValue(100);
        setDuration(1000);
    }
    void updateCurrentTime(int time) override { recorder::called("updateCurrentTime"); QVariantAnimation::updateCurrentTime(time); }
    void updateCurrentValue(const QVariant &) override { recorder::called("updateCurrentValue"); }
    void updateState(State now, State before) override { recorder::called("updateState"); QVariantAnimation::updateState(now, before); }
    void updateDirection(Direction way) override { recorder::called("updateDirection"); QVariantAnimation::updateDirection(way); }
};

template <class T> T *group(Scene &s)
{
    auto *it = new T;
    it->addAnimation(s.other(new Animation));
    it->addAnimation(s.other(new Animation));
    return it;
}

class Thread : public QThread
{
public:
    ~Thread() override
    {
        quit();
        wait();
    }
    void run() override { exec(); }
};

// A device that tells what is read of it and written to it.
class Device : public QIODevice
{
public:
    Device() { open(QIODevice::ReadWrite); }
    bool isSequential() const override { return true; }

protected:
    qint64 readData(char *to, qint64 most) override
    {
        recorder::called("readData");
        const qint64 count = qMin(most, m_left);
        std::fill_n(to, count, 'x');
        m_left -= count;
        return count;
    }
    qint64 readLineData(char *to, qint64 most) override
    {
        recorder::called("readLineData");
        return QIODevice::readLineData(to, most);
    }
    qint64 writeData(const char *, qint64 count) override { recorder::called("writeData"); return count; }

private:
    qint64 m_left = 100000;
};

QString command()
{
    return QStandardPaths::findExecutable("cat");
}

QTcpSocket *connected(Scene &s)
{
    auto *server = s.other(new QTcpServer);
    server->listen(QHostAddress::LocalHost);
    auto *it = new QTcpSocket;
    it->connectToHost(QHostAddress::LocalHost, server->serverPort());
    it->waitForConnected(2000);
    if (server->waitForNewConnection(2000))
        s.other(server->nextPendingConnection())->write("hello");
    return it;
}

QLocalServer *localServer(Scene &s)
{
    auto *it = s.other(new QLocalServer);
    it->listen(QString("gammonfig-table-%1").arg(QCoreApplication::applicationPid()));
    return it;
}

void setUpAnimations()
{
    SET_UP(QVariantAnimation, "stopped", return new Animation;)
    SET_UP(QVariantAnimation, "running", auto *it = new Animation; it->setLoopCount(2); it->start(); it->setCurrentTime(500); return it;)
    SET_UP(QVariantAnimation, "paused", auto *it = new Animation; it->start(); it->pause(); return it;)
    SET_UP(QPropertyAnimation, "of a plain object", auto *to = s.other(new QObject); auto *it = new QPropertyAnimation(to, "value");
           it->setStartValue(0); it->setEndValue(90); return it;)
    SET_UP(QPropertyAnimation, "running", auto *to = s.other(new QObject); auto *it = new QPropertyAnimation(to, "value");
           it->setStartValue(0); it->setEndValue(90); it->start(); return it;)
    SET_UP(QPauseAnimation, "plain", return new QPauseAnimation(100);)
    SET_UP(QSequentialAnimationGroup, "stopped", return group<QSequentialAnimationGroup>(s);)
    SET_UP(QSequentialAnimationGroup, "running", auto *it = group<QSequentialAnimationGroup>(s); it->start(); return it;)
    SET_UP(QParallelAnimationGroup, "stopped", return group<QParallelAnimationGroup>(s);)
    SET_UP(QParallelAnimationGroup, "running", auto *it = group<QParallelAnimationGroup>(s); it->start(); return it;)
    SET_UP(QTimeLine, "stopped", auto *it = new QTimeLine(1000); it->setFrameRange(0, 100); return it;)
    SET_UP(QTimeLine, "running", auto *it = new QTimeLine(1000); it->setFrameRange(0, 100); it->start(); it->setCurrentTime(500); return it;)
}

void setUpNetwork()
{
    CALL(QAbstractSocket, ~QAbstractSocket, delete &it;)
    CALL(QLocalSocket, ~QLocalSocket, delete &it;)
    CALL(QProcess, ~QProcess, delete &it;)
    SET_UP(QTcpSocket, "unconnected", return new QTcpSocket;)
    SET_UP(QTcpSocket, "connected", return connected(s);)
    SET_UP(QUdpSocket, "bound", auto *it = new QUdpSocket; it->bind(QHostAddress::LocalHost, 0); return it;)
    SET_UP(QSslSocket, "unconnected", return new QSslSocket;)
    SET_UP(QTcpServer, "listening", auto *it = new QTcpServer; it->listen(QHostAddress::LocalHost); return it;)
    SET_UP(QTcpServer, "closed", return new QTcpServer;)
    SET_UP(QLocalServer, "listening", auto *it = new QLocalServer; it->listen(QString("gammonfig-table-%1").arg(
           QCoreApplication::applicationPid())); return it;)
    SET_UP(QLocalSocket, "unconnected", return new QLocalSocket;)
    SET_UP(QLocalSocket, "connected", auto *server = localServer(s); auto *it = new QLocalSocket;
           it->connectToServer(server->fullServerName()); it->waitForConnected(2000); return it;)
    SET_UP(QLocalSocket, "beside a server", auto *server = localServer(s); auto *it = new QLocalSocket;
           it->setServerName(server->fullServerName()); return it;)
    SET_UP(QNetworkAccessManager, "plain", return new QNetworkAccessManager;)
    SET_UP(QNetworkReply, "under way", auto *it = s.other(new QNetworkAccessManager); return it->get(QNetworkRequest(QUrl("data:text/plain,x")));)
    SET_UP(QNetworkCookieJar, "plain", return new QNetworkCookieJar;)
    SET_UP(QDnsLookup, "plain", return new QDnsLookup;)
}

}  // namespace

void setUpCore()
{
    SET_UP(QObject, "plain", auto *it = new QObject; s.other(new QObject(it)); return it;)
    SET_UP(QTimer, "stopped", auto *it = new QTimer; it->setInterval(5000); return it;)
    SET_UP(QTimer, "running", auto *it = new QTimer; it->start(5000); return it;)
    SET_UP(QProcess, "not started", return new QProcess;)
    SET_UP(QProcess, "to start", auto *it = new QProcess; it->setProgram(command()); return it;)
    SET_UP(QProcess, "running", auto *it = new QProcess; it->start(command(), {}); it->waitForStarted(2000); return it;)
    SET_UP(QProcess, "with output", auto *it = new QProcess; it->start(command(), {}); it->waitForStarted(2000); it->write("text\n"); return it;)
    SET_UP(QIODevice, "of its own", return new Device;)
    SET_UP(QBuffer, "open", auto *it = new QBuffer; it->setData("some\ndata"); it->open(QIODevice::ReadWrite); return it;)
    SET_UP(QBuffer, "closed", auto *it = new QBuffer; it->setData("some\ndata"); return it;)
    SET_UP(QTemporaryFile, "open", auto *it = new QTemporaryFile; it->open(); it->write("some"); return it;)
    SET_UP(QThread, "not started", return new Thread;)
    SET_UP(QThread, "running", auto *it = new Thread; it->start(); return it;)
    SET_UP(QFileSystemWatcher, "plain", auto *it = new QFileSystemWatcher; it->addPath(QDir::tempPath()); return it;)
    SET_UP(QSignalMapper, "a mapping", auto *it = new QSignalMapper; it->setMapping(s.sibling, 4); it->setMapping(s.sibling, "text");
           it->setMapping(s.sibling, s.window); return it;)
    SET_UP(QSettings, "of a file", static QTemporaryDir places; return new QSettings(places.filePath("a.ini"), QSettings::IniFormat);)
    SET_UP(QTranslator, "plain", return new QTranslator;)
    SET_UP(QStyleHints, "the application's", return QGuiApplication::styleHints();)
    SET_UP(QApplication, "this one", return qApp;)
    SET_UP(QThreadPool, "plain", return new QThreadPool;)
    setUpAnimations();
    setUpNetwork();
}
