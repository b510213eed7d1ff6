#include "barn.h"
#include <QCheckBox>
#include <QLineEdit>
#include <QVBoxLayout>

BarnEditor::BarnEditor(BarnItem *item, QWidget *parent)
    : QWidget(parent), m_item(item), m_name(new QLineEdit(this)), m_whole(new QCheckBox(this))
{
    setAttribute(Qt::WA_DeleteOnClose);
    auto *layout = new QVBoxLayout(this);
    layout->addWidget(m_name);
    layout->addWidget(m_whole);
    connect(m_name, &QLineEdit::returnPressed, this, &BarnEditor::finish);
    connect(m_whole, &QCheckBox::toggled, m_name, &QLineEdit::setEnabled);
    connect(m_item, &BarnItem::ended, this, &QWidget::close);
    connect(m_item, &BarnItem::nameChanged, m_name, &QLineEdit::setText);
}
void BarnEditor::finish()
{
    m_job.reset();
    if (m_whole->isChecked())
        emit accepted(m_name->text());
    else
        emit rejected();
    close();
}

void setUpBarn(Desk *desk)
{
    auto *store = new BarnStore(desk);
    desk->add(store);
    auto *panel = new BarnPanel(store, desk);
    desk->add(panel);
    QAction *action = desk->action("Barn");
    QObject::connect(action, &QAction::triggered, panel, &Panel::open);
    QObject::connect(desk, &Desk::currentChanged, panel, &Panel::refresh);
    QObject::connect(desk, &Desk::noted, panel, [panel](const QString &) { panel->refresh(); });
    auto *again = desk->action("Again");
    QObject::connect(again, &QAction::triggered, store, &Store::reload);
    QTimer::singleShot(0, store, [store] { store->load(); });
    desk->run(new BarnJob(store));
}
