#include "barn.h"
#include <QHBoxLayout>
#include <QLabel>
#include <QLineEdit>
#include <QPushButton>
#include <QSpinBox>

BarnPanel::BarnPanel(BarnStore *store, QWidget *parent)
    : Panel(store, parent), m_own(store), m_add(new QPushButton("Add")), m_edit(new QPushButton("Edit")), m_rank(new QSpinBox),
      m_name(new QLineEdit), m_told(new QLabel)
{
    auto *layout = new QHBoxLayout(this);
    for (QWidget *widget : QList<QWidget *>{m_add, m_edit, m_rank, m_name, m_told})
        layout->addWidget(widget);
    connect(m_add, &QPushButton::clicked, this, &BarnPanel::addItem);
    connect(m_edit, &QPushButton::clicked, this, &BarnPanel::editItem);
    connect(m_rank, &QSpinBox::valueChanged, this, [this](int rank) {
        if (m_item)
            m_item->setRank(rank);
    });
    connect(m_name, &QLineEdit::textEdited, this, &Panel::wanted);
    connect(m_name, &QLineEdit::editingFinished, this, [this] {
        if (m_item)
            m_item->setName(m_name->text());
    });
    connect(store, &BarnStore::itemAdded, this, &BarnPanel::showItem);
    connect(store, &BarnStore::itemRemoved, this, &BarnPanel::itemGone);
    connect(store, &Store::countChanged, m_rank, &QSpinBox::setMaximum);
    whenever(store, &Store::changed, Desk::instance());
}
void BarnPanel::refresh()
{
    m_told->setText(title());
    m_rank->setValue(m_own->count());
    Panel::refresh();
}
QString BarnPanel::title() const
{
    return m_name->text();
}
void BarnPanel::addItem()
{
    follow(m_own->add(m_name->text()));
}
void BarnPanel::follow(BarnItem *item)
{
    if (m_item)
        m_item->disconnect(this);
    m_item = item;
    connect(item, &BarnItem::nameChanged, m_name, &QLineEdit::setText);
    connect(item, &BarnItem::rankChanged, m_rank, &QSpinBox::setValue);
    connect(item, &QObject::destroyed, this, &BarnPanel::itemGone);
}
void BarnPanel::showItem(BarnItem *item)
{
    follow(item);
    open();
}
void BarnPanel::editItem()
{
    if (!m_item)
        return;
    auto *editor = new BarnEditor(m_item, this);
    connect(editor, &BarnEditor::accepted, m_item, &BarnItem::setName);
    connect(editor, &BarnEditor::rejected, this, &Panel::refresh);
    editor->show();
}
void BarnPanel::itemGone()
{
    m_item.clear();
    refresh();
}
