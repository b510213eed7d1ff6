#include "scene.h"

Scene::Scene()
{
    window = new QWidget;
    auto *lines = new QVBoxLayout(window);
    sibling = new QLineEdit(window);
    lines->addWidget(sibling);
    window->resize(300, 200);
}

Scene::~Scene()
{
    const QPointer<QObject> kept(self);
    for (auto it = m_others.crbegin(); it != m_others.crend(); ++it)
        if (*it && !(*it)->parent())
            delete *it;
    delete window;
    const bool lent = kept == qApp || qobject_cast<QClipboard *>(kept) || qobject_cast<QStyleHints *>(kept);
    if (kept && !lent && !kept->parent())
        delete kept;
}

void Scene::add(QObject *it, int number)
{
    if (!it)
        return;
    recorder::Known known;
    known.named = true;
    known.argument = number;
    known.classes = recorder::classesOf(it->metaObject());
    m_known.insert(it, known);
    recorder::add(it, known);
    m_others << it;
}

QStandardItemModel *Scene::filledModel()
{
    auto *made = other(new QStandardItemModel(3, 2));
    for (int row = 0; row < 3; ++row) {
        made->setItem(row, 0, new QStandardItem(QString("row %1").arg(row)));
        made->item(row, 0)->appendRow(new QStandardItem("child"));
    }
    model = made;
    item<QStandardItem>(made->item(1, 0));
    return made;
}

void Scene::place(const Subject &subject, bool shown)
{
    self = subject.object;
    auto *widget = qobject_cast<QWidget *>(self);
    if (!widget)
        widget = kept<QAbstractScrollArea>();
    const bool inside = widget && widget->windowType() == Qt::Widget && !qobject_cast<QMainWindow *>(widget);
    if (inside && !widget->parentWidget())
        window->layout()->addWidget(widget);
    if (shown) {
        window->show();
        window->activateWindow();
        sibling->setFocus();
        if (widget && !inside)
            widget->show();
        else if (widget && widget->focusPolicy() != Qt::NoFocus && widget->isEnabled())
            widget->setFocus();
    }
    settle();
}

void Scene::settle()
{
    for (int turn = 0; turn < 3; ++turn)
        QCoreApplication::processEvents();
    QCoreApplication::sendPostedEvents(nullptr, QEvent::DeferredDelete);
}

QHash<QObject *, recorder::Known> Scene::known(QObject *object) const
{
    QHash<QObject *, recorder::Known> all;
    for (const QPointer<QObject> &it : m_others)
        if (it)
            all.insert(it, m_known.value(it));
    if (object) {
        for (QObject *child : object->findChildren<QObject *>())
            if (!all.contains(child))
                all.insert(child, {});
        if (!all.contains(object))
            all.insert(object, {});
    }
    for (const QPointer<QObject> &it : m_others)
        if (it)
            for (QObject *child : it->findChildren<QObject *>())
                if (!all.contains(child))
                    all.insert(child, {});
    for (auto it = all.begin(); it != all.end(); ++it) {
        it->classes = recorder::classesOf(it.key()->metaObject());
        it->parent = it.key()->parent();
    }
    all.insert(window, {recorder::classesOf(window->metaObject()), true, -1, nullptr});
    all.insert(sibling, {recorder::classesOf(sibling->metaObject()), true, 0, window});
    return all;
}

QModelIndex Scene::index(int variant) const
{
    if (!model || variant == 2)
        return {};
    return model->index(variant ? 0 : 1, 0);
}
