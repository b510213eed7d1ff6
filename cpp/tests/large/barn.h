// One part of the large program: it stands there as often as is wanted, each time by another name in the place of `Barn`.
#pragma once
#include "shared.h"

class QCheckBox;
class QLabel;
class QLineEdit;
class QPushButton;
class QSpinBox;
class BarnItem;

class BarnStore : public Store {
    Q_OBJECT
public:
    explicit BarnStore(QObject *parent = nullptr);
    ~BarnStore() override;
    void load() override;
    void save() override;
    BarnItem *item(int at) const { return m_items.value(at); }
    BarnItem *add(const QString &name);
public slots:
    void remove(BarnItem *item);
    void on_timer_timeout();
signals:
    void itemAdded(BarnItem *item);
    void itemRemoved(BarnItem *item);
private:
    QList<BarnItem *> m_items;
    QTimer *m_timer;
    bool m_isLoading = false;
};

class BarnItem : public QObject {
    Q_OBJECT
    Q_PROPERTY(QString name READ name WRITE setName NOTIFY nameChanged)
public:
    explicit BarnItem(BarnStore *store);
    QString name() const { return m_name; }
    void setName(const QString &name);
    void setRank(int rank);
public slots:
    void end();
signals:
    void nameChanged(const QString &name);
    void rankChanged(int rank);
    void ended(BarnItem *item);
private:
    BarnStore *m_store;
    QString m_name;
    int m_rank = 0;
};

class BarnJob : public Job {
    Q_OBJECT
public:
    explicit BarnJob(BarnStore *store);
    void start() override;
    void stop() override;
private slots:
    void step();
private:
    QPointer<BarnStore> m_store;
    QTimer m_ticks;
    int m_at = 0;
};

class BarnPanel : public Panel {
    Q_OBJECT
public:
    explicit BarnPanel(BarnStore *store, QWidget *parent = nullptr);
    void refresh() override;
    QString title() const override;
private slots:
    void addItem();
    void showItem(BarnItem *item);
    void editItem();
    void itemGone();
private:
    void follow(BarnItem *item);
    BarnStore *m_own;
    QPushButton *m_add, *m_edit;
    QSpinBox *m_rank;
    QLineEdit *m_name;
    QLabel *m_told;
    QPointer<BarnItem> m_item;
};

class BarnEditor : public QWidget {
    Q_OBJECT
public:
    explicit BarnEditor(BarnItem *item, QWidget *parent = nullptr);
signals:
    void accepted(const QString &name);
    void rejected();
private:
    void finish();
    BarnItem *m_item;
    QLineEdit *m_name;
    QCheckBox *m_whole;
    std::unique_ptr<BarnJob> m_job;
};

void setUpBarn(Desk *desk);
