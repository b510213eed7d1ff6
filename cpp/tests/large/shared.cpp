#include "shared.h"
#include <QCloseEvent>

Store::Store(QObject *parent) : QObject(parent)
{
    connect(this, &Store::changed, this, &Store::save);
}
void Store::load()
{
    emit changed();
}
void Store::save()
{
}
void Store::setCount(int count)
{
    if (m_count == count)
        return;
    m_count = count;
    emit countChanged(count);
}
void Store::reload()
{
    load();
}

Panel::Panel(Store *store, QWidget *parent) : QWidget(parent), m_store(store)
{
    connect(store, &Store::changed, this, &Panel::refresh);
    connect(store, SIGNAL(failed(QString)), this, SLOT(leave()));
}
void Panel::refresh()
{
    update();
}
void Panel::open()
{
    show();
    emit opened(this);
}
void Panel::leave()
{
    emit left(this);
    hide();
}
void Panel::closeEvent(QCloseEvent *event)
{
    leave();
    event->accept();
}

void Job::stop()
{
    emit done();
}

Desk *Desk::instance()
{
    static Desk desk;
    return &desk;
}
Panel *Desk::add(Panel *panel)
{
    m_panels.append(panel);
    connect(panel, &Panel::opened, this, &Desk::show);
    connect(panel, &Panel::left, this, &Desk::forget);
    connect(panel, &Panel::wanted, this, &Desk::note);
    return panel;
}
void Desk::add(Store *store)
{
    m_stores.append(store);
    connect(store, &Store::failed, this, &Desk::note);
    connect(&m_timer, &QTimer::timeout, store, &Store::reload);
}
void Desk::run(Job *job)
{
    m_jobs.append(job);
    connect(job, &Job::done, job, &QObject::deleteLater);
    connect(this, &Desk::quitting, job, [job] { job->stop(); });
    job->start();
}
QAction *Desk::action(const QString &name)
{
    if (!m_actions.contains(name))
        m_actions.insert(name, new QAction(name, this));
    return m_actions.value(name);
}
void Desk::show(Panel *panel)
{
    if (m_current == panel)
        return;
    m_current = panel;
    emit currentChanged(panel);
}
void Desk::closeAll()
{
    emit quitting();
    for (Panel *panel : m_panels)
        panel->close();
    qDeleteAll(m_jobs);
    m_jobs.clear();
}
void Desk::refreshAll()
{
    for (Panel *panel : m_panels)
        panel->refresh();
}
void Desk::note(const QString &what)
{
    emit noted(what);
}
void Desk::forget(Panel *panel)
{
    m_panels.removeOne(panel);
    panel->deleteLater();
}
