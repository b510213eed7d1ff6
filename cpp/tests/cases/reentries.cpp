// Slots that run an event loop, and who brings them about: a user, whom a dialog keeps away, or the event loop.
#include <QtWidgets>

class Panel : public QWidget {
    Q_OBJECT
public:
    Panel()
    {
        connect(m_buttons, &QButtonGroup::buttonToggled, this, &Panel::press);
        connect(m_actions, &QActionGroup::triggered, this, &Panel::act);
        connect(m_completer, qOverload<const QString &>(&QCompleter::activated), this, &Panel::complete);
        connect(m_selection, &QItemSelectionModel::selectionChanged, this, &Panel::select);
        connect(m_model, &QStandardItemModel::modelReset, this, &Panel::reset);
        connect(m_files, &QFileSystemModel::rowsInserted, this, &Panel::list);
        connect(m_timer, &QTimer::timeout, this, &Panel::tick);
    }
    void press() { QEventLoop loop; loop.exec(); }
    void act() { QEventLoop loop; loop.exec(); }
    void complete() { QEventLoop loop; loop.exec(); }
    void select() { QEventLoop loop; loop.exec(); }
    void reset() { QEventLoop loop; loop.exec(); }
    void list() { QEventLoop loop; loop.exec(); }
    void tick() { QEventLoop loop; loop.exec(); }

private:
    QButtonGroup *m_buttons = new QButtonGroup(this);
    QActionGroup *m_actions = new QActionGroup(this);
    QCompleter *m_completer = new QCompleter(this);
    QStandardItemModel *m_model = new QStandardItemModel(this);
    QItemSelectionModel *m_selection = new QItemSelectionModel(m_model, this);
    QFileSystemModel *m_files = new QFileSystemModel(this);
    QTimer *m_timer = new QTimer(this);
};

// What a thread tells while it runs is posted, and so is delivered while a box is open.
class Checker : public QThread {
    Q_OBJECT
protected:
    void run() override { emit failed(); }
signals:
    void failed();
};

class Report : public QWidget {
    Q_OBJECT
public:
    Report()
    {
        connect(&m_checker, &Checker::failed, this, &Report::tell);
        m_checker.start();
    }
    void tell() { QMessageBox::warning(this, "Report", "It failed."); }

private:
    Checker m_checker;
};
