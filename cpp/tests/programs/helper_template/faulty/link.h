#pragma once
#include <QObject>

// Connects a signal of one object to a slot of another, both given as pointers to members.
template <typename From, typename Signal, typename To, typename Slot>
void link(From *from, Signal signal, To *to, Slot slot)
{
    QObject::connect(from, signal, to, slot);
}
