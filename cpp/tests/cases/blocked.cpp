// Lists whose signals are blocked while their items change.
#include <QtWidgets>

class Feeds : public QWidget {
    Q_OBJECT
public:
    Feeds()
    {
        connect(m_feeds, &QListWidget::itemChanged, this, &Feeds::show);
        connect(m_rules, &QListWidget::itemChanged, this, &Feeds::look);
    }
    void show()
    {
        const QSignalBlocker blocker(m_feeds);
        m_feeds->item(0)->setCheckState(Qt::Checked);
    }
    // A twin: another list is blocked than that whose item changes.
    void look()
    {
        const QSignalBlocker blocker(m_feeds);
        m_rules->item(0)->setCheckState(Qt::Checked);
    }
private:
    QListWidget *m_feeds = new QListWidget(this);
    QListWidget *m_rules = new QListWidget(this);
};

// Two circles of one set: signals are blocked on one of them alone.
class Notes : public QWidget {
    Q_OBJECT
public:
    Notes()
    {
        connect(m_notes, &QListWidget::itemChanged, this, &Notes::told);
        connect(this, &Notes::told, this, &Notes::mute);
    }
    void mute()
    {
        const QSignalBlocker blocker(m_notes);
        m_notes->item(0)->setCheckState(Qt::Checked);
        emit told();
    }
signals:
    void told();
private:
    QListWidget *m_notes = new QListWidget(this);
};
