// What stands around one call: the subject, what the set-up put beside it, and the arguments.
#pragma once
#include "recorder.h"
#include <QtNetwork>
#include <map>
#include <memory>
#include <typeindex>

// The object that a function is called on: a QObject, or a plain one of a class known by its type.
struct Subject {
    QObject *object = nullptr;
    void *plain = nullptr;
    std::type_index type = typeid(void);
    QByteArray name;             // the class whose set-up made it
};

class Scene
{
public:
    Scene();
    ~Scene();
    template <class T> T *other(T *it)
    {
        add(it, 0);
        return it;
    }
    template <class T> T *argument(T *it, int number)
    {
        add(it, number);
        return it;
    }
    // The last object of a class that the set-up made.
    template <class T> T *kept()
    {
        for (auto it = m_others.crbegin(); it != m_others.crend(); ++it)
            if (T *found = dynamic_cast<T *>(it->data()))
                return found;
        return nullptr;
    }
    // An item, which is no QObject, that the set-up made.
    template <class T> T *item(T *it)
    {
        m_items[typeid(T)] = it;
        return it;
    }
    template <class T> T *keptItem()
    {
        const auto found = m_items.find(typeid(T));
        return found == m_items.end() ? nullptr : static_cast<T *>(found->second);
    }
    QStandardItemModel *filledModel();
    void place(const Subject &subject, bool shown);   // puts a widget into the window, and shows it
    void settle();
    QHash<QObject *, recorder::Known> known(QObject *self) const;
    QModelIndex index(int variant) const;

    QAbstractItemModel *model = nullptr;
    QObject *self = nullptr;
    QWidget *window = nullptr;
    QLineEdit *sibling = nullptr;

private:
    void add(QObject *it, int number);
    QList<QPointer<QObject>> m_others;
    QHash<QObject *, recorder::Known> m_known;
    std::map<std::type_index, void *> m_items;
};
