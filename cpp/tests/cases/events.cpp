// Events that come to filters, and to `event`, before the functions that handle them.
#include <QtWidgets>

class Watcher : public QObject {
    Q_OBJECT
public:
    bool eventFilter(QObject *watched, QEvent *event) override {
        if (event->type() == QEvent::Resize) {
            emit stretched();
        } else if (watched->isWidgetType() && (event->type() == QEvent::KeyPress || event->type() == QEvent::KeyRelease)) {
            emit typed();
        }
        switch (event->type()) {
        case QEvent::Move:
        case QEvent::MouseMove:
            emit moved();
            break;
        default:
            break;
        }
        return QObject::eventFilter(watched, event);
    }
signals:
    void stretched();
    void typed();
    void moved();
};

class Board : public QWidget {
    Q_OBJECT
public:
    bool event(QEvent *event) override {
        if (event->type() != QEvent::Resize)
            return QWidget::event(event);
        emit resized();
        return true;
    }
    void moveEvent(QMoveEvent *) override { emit carried(); }
    void mousePressEvent(QMouseEvent *) override { emit clicked(); }
signals:
    void resized();
    void carried();
    void clicked();
};

class Desk : public QWidget {
    Q_OBJECT
public:
    Desk() {
        m_board->installEventFilter(m_watcher);
        connect(m_watcher, &Watcher::stretched, this, &Desk::done);
        connect(m_watcher, &Watcher::typed, this, &Desk::done);
        connect(m_watcher, &Watcher::moved, this, &Desk::done);
        for (auto signal : {&Board::resized, &Board::carried, &Board::clicked})
            connect(m_board, signal, this, &Desk::done);
    }
    void grow() { m_board->resize(1, 2); }
    void carry() { m_board->move(1, 2); }
    void growOther() { m_other->resize(1, 2); }
    void keyPressEvent(QKeyEvent *event) override { QCoreApplication::sendEvent(m_board, event); }
    void sendType() {
        QEvent moved(QEvent::Move);
        QCoreApplication::sendEvent(m_board, &moved);
    }
    void sendClass() { QCoreApplication::sendEvent(m_board, m_last); }
    void post() { QCoreApplication::postEvent(m_board, new QEvent(QEvent::Resize)); }
    void sendAny(QEvent *event) { QCoreApplication::sendEvent(m_board, event); }
    void childEvent(QChildEvent *) override { emit done(); }
    void add() { m_label = new QLabel(this); }
signals:
    void done();
private:
    QWheelEvent *m_last = nullptr;
    QLabel *m_label = nullptr;
    Watcher *m_watcher = new Watcher;
    Board *m_board = new Board;
    QFrame *m_other = new QFrame;
};

class Canvas : public QFrame {
    Q_OBJECT
public:
    void paintEvent(QPaintEvent *) override { emit painted(); }
signals:
    void painted();
};

// Has its widget paint itself, and paints over it.
class Over : public QObject {
    Q_OBJECT
public:
    Over() {
        m_canvas->installEventFilter(this);
        connect(m_canvas, &Canvas::painted, this, &Over::done);
    }
    bool eventFilter(QObject *, QEvent *event) override {
        if (m_off || event->type() != QEvent::Paint)
            return false;
        m_off = true;
        QCoreApplication::sendEvent(m_canvas, event);
        m_off = false;
        emit done();
        return true;
    }
    void draw() { m_canvas->repaint(); }
signals:
    void done();
private:
    bool m_off = false;
    Canvas *m_canvas = new Canvas;
};
