// What another thread or an event loop does later.
#include <QtCore>

class Worker : public QObject {
    Q_OBJECT
public slots:
    void work() { emit done(); }
signals:
    void done();
};

class Loop : public QThread {
    Q_OBJECT
public:
    void run() override { emit stepped(); helper(); }
private:
    void helper() { emit helped(); }
signals:
    void stepped();
    void helped();
};

class Master : public QObject {
    Q_OBJECT
public:
    Master() : m_worker(new Worker) {
        m_worker->moveToThread(&m_thread);
        connect(this, &Master::wanted, m_worker, &Worker::work);
        connect(m_worker, &Worker::done, this, &Master::next);
        connect(&m_loop, &Loop::stepped, this, &Master::next);
        connect(&m_loop, &Loop::helped, this, &Master::next, Qt::DirectConnection);
    }
    void posts() { QTimer::singleShot(0, this, &Master::next); }
    void postsLambda() { QTimer::singleShot(10, this, [this] { next(); }); }
    void invokes() { QMetaObject::invokeMethod(this, "next", Qt::QueuedConnection); }
    void invokesNow() { QMetaObject::invokeMethod(this, &Master::next); }
    void invokesWith(int one) { QMetaObject::invokeMethod(this, "with", Q_ARG(int, one)); }
    void invokesLaterWith(int one) { QMetaObject::invokeMethod(this, "with", Qt::QueuedConnection, Q_ARG(int, one)); }
public slots:
    void next() { emit wanted(); }
    void with(int) { emit wanted(); }
signals:
    void wanted();
private:
    QThread m_thread;
    Loop m_loop;
    Worker *m_worker;
};

// What the thread makes for itself lives there, with what that makes.
class Engine : public QObject {
    Q_OBJECT
public:
    Engine() { connect(&m_timer, &QTimer::timeout, this, &Engine::tick); }
public slots:
    void tick() { emit ticked(); }
signals:
    void ticked();
private:
    QTimer m_timer;
};

class Machine : public QThread {
    Q_OBJECT
public:
    void run() override { m_engine = new Engine; exec(); }
    Engine *m_engine = nullptr;
};

class Job : public QObject, public QRunnable {
    Q_OBJECT
public:
    void run() override { emit finished(); }
signals:
    void finished();
};

class Driver : public QObject {
    Q_OBJECT
public:
    Driver() {
        m_machine.start();
        connect(m_machine.m_engine, &Engine::ticked, this, &Driver::see);
        connect(&m_job, &Job::finished, this, &Driver::see);
    }
    void again() { QThreadPool::globalInstance()->start(&m_job); }
public slots:
    void see() { emit seen(); }
    void both() { QThreadPool::globalInstance()->start([this] { emit seen(); }); }
    void forget() { QThreadPool::globalInstance()->clear(); }
signals:
    void seen();
private:
    Machine m_machine;
    Job m_job;
    QTimer m_own;
};

// A circle through an event loop: the signals are blocked on the shorter way, and on the longer one where there is no other.
class Knob : public QObject {
    Q_OBJECT
public:
    void turn() { emit turned(); }
    void push() { turn(); }
signals:
    void turned();
};

class Panel : public QObject {
    Q_OBJECT
public:
    Panel()
    {
        connect(&m_knob, &Knob::turned, this, &Panel::later);
        connect(&m_other, &Knob::turned, this, &Panel::otherLater);
    }
    void later() { QTimer::singleShot(0, this, &Panel::show); }
    void otherLater() { QTimer::singleShot(0, this, &Panel::showOther); }
    void show() { m_knob.blockSignals(true); m_knob.turn(); m_knob.blockSignals(false); m_knob.push(); }
    void showOther() { m_other.blockSignals(true); m_other.turn(); m_other.blockSignals(false); }
private:
    Knob m_knob, m_other;
};
