// What all parts of the large program share: base classes that each part overrides, and a desk that holds objects of all parts.
#pragma once
#include <QAction>
#include <QHash>
#include <QList>
#include <QPointer>
#include <QTimer>
#include <QWidget>
#include <memory>

class Store : public QObject {
    Q_OBJECT
public:
    explicit Store(QObject *parent = nullptr);
    virtual void load();
    virtual void save();
    int count() const { return m_count; }
    void setCount(int count);
public slots:
    void reload();
signals:
    void changed();
    void countChanged(int count);
    void failed(const QString &why);
protected:
    int m_count = 0;
};

class Panel : public QWidget {
    Q_OBJECT
public:
    explicit Panel(Store *store, QWidget *parent = nullptr);
    virtual void refresh();
    virtual QString title() const = 0;
    Store *store() const { return m_store; }
public slots:
    void open();
    void leave();
signals:
    void opened(Panel *panel);
    void left(Panel *panel);
    void wanted(const QString &title);
protected:
    void closeEvent(QCloseEvent *event) override;
    Store *m_store;
};

class Job : public QObject {
    Q_OBJECT
public:
    explicit Job(QObject *parent = nullptr) : QObject(parent) { }
    virtual void start() = 0;
    virtual void stop();
signals:
    void progress(int percent);
    void done();
};

class Desk : public QWidget {
    Q_OBJECT
public:
    static Desk *instance();
    Panel *add(Panel *panel);
    void add(Store *store);
    void run(Job *job);
    Panel *current() const { return m_current; }
    QAction *action(const QString &name);
public slots:
    void show(Panel *panel);
    void closeAll();
    void refreshAll();
    void note(const QString &what);
signals:
    void currentChanged(Panel *panel);
    void noted(const QString &what);
    void quitting();
private:
    void forget(Panel *panel);
    QList<Panel *> m_panels;
    QList<Store *> m_stores;
    QHash<QString, QAction *> m_actions;
    QList<Job *> m_jobs;
    Panel *m_current = nullptr;
    QTimer m_timer;
};

template <typename Sender, typename Signal> void whenever(Sender *sender, Signal signal, Desk *desk)
{
    QObject::connect(sender, signal, desk, &Desk::refreshAll);
}
