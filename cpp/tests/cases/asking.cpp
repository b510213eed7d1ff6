// Who answers is known by a text alone: a slot or a signal of whatever object it is.
#include <QObject>

class Asker : public QObject {
    Q_OBJECT
public:
    Asker(QObject *any) {
        connect(this, SIGNAL(asked(int)), any, SLOT(asked(int)));
        connect(this, SIGNAL(told(int)), any, SIGNAL(told(int)));
    }
signals:
    void asked(int value);
    void told(int value);
};

class Answerer : public QObject {
    Q_OBJECT
public slots:
    void asked(int value) { emit told(value); }
signals:
    void told(int value);
};
