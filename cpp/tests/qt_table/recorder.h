// Notes what Qt does while one of its functions runs: each signal that is emitted (by Qt's own hook for it, whoever listens), each
// handler of events and each other virtual function that is called, what is deleted, and who becomes whose parent.
#pragma once
#include <QtWidgets>

namespace recorder {

struct Known {               // an object that stood there before the call
    QByteArray classes;      // its class and those above it, parted by '>'
    bool named = false;      // the set-up made it, or it is an argument; else Qt made it
    int argument = 0;        // which argument it is, from 1; 0: none
    QPointer<QObject> parent;
};

void start(QObject *self, const QHash<QObject *, Known> &known);
void add(QObject *it, const Known &known);    // one more object that is named: an argument
void later();                                 // what follows comes from the event loop
QByteArrayList stop();                        // what was noted, each once, in the order in which it came
void called(const char *name);                     // a virtual function of the subject was called
void calledOf(const char *cls, const char *name);   // one of another object
void install();

// Stands while an event is delivered: what comes in it is noted as of that object's handler.
class Delivery
{
public:
    Delivery(QObject *to, const QEvent *event);
    ~Delivery();

private:
    bool m_counted;
};

// While one stands, nothing is noted: what makes an argument isn't part of the call.
class Pause
{
public:
    Pause();
    ~Pause();

private:
    bool m_before;
};

QByteArray classesOf(const QMetaObject *it, const QMetaObject *last = nullptr);
bool under(const QObject *it, const QObject *above);

}  // namespace recorder
