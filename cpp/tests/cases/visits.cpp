// What an object is told of by others: its parent, a server's next connection, an event loop that runs meanwhile.
#include <QCoreApplication>
#include <QEventLoop>
#include <QTcpServer>
#include <QTcpSocket>
#include <QTimer>

class Hall : public QObject {
    Q_OBJECT
public:
    ~Hall() override { emit closed(); }
    void open() { emit opened(); }
signals:
    void opened();
    void closed();
};

class Cellar : public QObject {
    Q_OBJECT
public:
    void open() { emit opened(); }
signals:
    void opened();
};

class Door : public QObject {
    Q_OBJECT
public:
    explicit Door(QObject *parent) : QObject(parent) {}
    void push() { static_cast<Hall *>(parent())->open(); }
    void pushCarefully() { if (auto *hall = qobject_cast<Hall *>(parent())) hall->open(); }
    void pushKnown() { connect(static_cast<Hall *>(parent()), &Hall::opened, this, &Door::creak); }
    void creak() { emit creaked(); }
    void endHall() { delete static_cast<Hall *>(parent()); }
    void endParent() { delete parent(); }
signals:
    void creaked();
};

class House : public QObject {
    Q_OBJECT
public:
    House() : m_hall(new Hall), m_cellar(new Cellar), m_front(new Door(m_hall)), m_hatch(new Door(m_cellar)) {}
    void enter() { m_front->push(); m_hatch->pushCarefully(); m_front->endHall(); m_front->endParent(); }
private:
    Hall *m_hall;
    Cellar *m_cellar;
    Door *m_front;
    Door *m_hatch;
};

class Host : public QTcpServer {
    Q_OBJECT
public:
    Host() { connect(this, &QTcpServer::newConnection, this, &Host::greet); }
    void greet() {
        QTcpSocket *guest = nextPendingConnection();
        connect(guest, &QTcpSocket::disconnected, this, &Host::leave);
        connect(guest, &QTcpSocket::disconnected, guest, &QObject::deleteLater);
        m_guests.append(guest);
    }
    void leave() { emit left(); }
    void end() { delete this; }
    void send() { for (QTcpSocket *guest : m_guests) guest->disconnectFromHost(); }
signals:
    void left();
private:
    QList<QTcpSocket *> m_guests;
};

class Waiting : public QObject {
    Q_OBJECT
public:
    Waiting() {
        connect(&m_timer, &QTimer::timeout, this, &Waiting::wait);
        connect(&m_timer, &QTimer::timeout, this, &Waiting::waitInLoop);
    }
    void wait() { QCoreApplication::processEvents(); emit waited(); }
    void waitInLoop() { QEventLoop loop; loop.processEvents(QEventLoop::ExcludeUserInputEvents); emit waited(); }
signals:
    void waited();
private:
    QTimer m_timer;
};
