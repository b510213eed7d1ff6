// Actions and buttons in groups: those of one group check and uncheck one another, and the group tells of them.
#include <QtWidgets>

namespace Ui {
// A form as uic writes it, called as the window is.
class Window {
public:
    void setupUi(QWidget *window) { window->setEnabled(true); }
};
}

class Window : public QWidget {
    Q_OBJECT
public:
    Window() {
        m_form.setupUi(this);
        m_sizes->addAction(m_large);
        m_wide->setActionGroup(m_shapes);
        m_pages->addButton(m_first);
        m_pages->addButton(m_second);
        m_loud->setAutoExclusive(true);
        connect(m_small, &QAction::toggled, this, &Window::look);
        connect(m_large, &QAction::toggled, this, &Window::look);
        connect(m_wide, &QAction::toggled, this, &Window::look);
        connect(m_alone, &QAction::toggled, this, &Window::look);
        connect(m_first, &QAbstractButton::toggled, this, &Window::look);
        connect(m_second, &QAbstractButton::toggled, this, &Window::look);
        connect(m_loud, &QAbstractButton::toggled, this, &Window::look);
        connect(m_plain, &QAbstractButton::toggled, this, &Window::look);
        connect(m_station, &QAbstractButton::toggled, this, &Window::look);
        connect(m_sizes, &QActionGroup::triggered, this, &Window::look);
        connect(m_shapes, &QActionGroup::triggered, this, &Window::turn);
    }
    void grow() { m_large->setChecked(true); }
    void widen() { m_wide->setChecked(true); }
    void alone() { m_alone->setChecked(true); }
    void open() { m_first->setChecked(true); }
    void shout() { m_loud->setChecked(true); }
    void press() { m_plain->setChecked(true); }
    void changeEvent(QEvent *) override { emit looked(); }
    void look() { emit looked(); }
    void turn() { emit looked(); }
signals:
    void looked();
private:
    Ui::Window m_form;
    QActionGroup *m_sizes = new QActionGroup(this);
    QActionGroup *m_shapes = new QActionGroup(this);
    QAction *m_small = new QAction("small", m_sizes);
    QAction *m_large = new QAction("large", this);
    QAction *m_wide = new QAction("wide", this);
    QAction *m_alone = new QAction("alone", this);
    QButtonGroup *m_pages = new QButtonGroup(this);
    QPushButton *m_first = new QPushButton(this);
    QPushButton *m_second = new QPushButton(this);
    QPushButton *m_loud = new QPushButton(this);
    QPushButton *m_plain = new QPushButton(this);
    QRadioButton *m_station = new QRadioButton(this);
};
