// Values that follow one another, where limits are set on the way.
#include <QtWidgets>

static void follow(QSlider *slider, int value)
{
    if (value > slider->maximum())
        slider->setMaximum(value);
    slider->setValue(value);
}

// What the box tells first makes zero the least value: once.
class Speed : public QWidget {
    Q_OBJECT
public:
    Speed()
    {
        connect(m_slider, &QSlider::valueChanged, m_box, &QSpinBox::setValue);
        connect(m_box, &QSpinBox::valueChanged, this, [this](int value) { follow(m_slider, value); });
        connect(m_box, &QSpinBox::valueChanged, this, &Speed::begin);
    }
    void begin() { m_box->setMinimum(0); }
private:
    QSlider *m_slider = new QSlider(this);
    QSpinBox *m_box = new QSpinBox(this);
};

// A twin: each maximum lies below the value.
class Fall : public QWidget {
    Q_OBJECT
public:
    Fall() { connect(m_box, &QSpinBox::valueChanged, this, &Fall::lower); }
    void lower(int value) { m_box->setMaximum(value - 1); }
private:
    QSpinBox *m_box = new QSpinBox(this);
};

// A twin: it goes on at the other end.
class Round : public QWidget {
    Q_OBJECT
public:
    Round()
    {
        m_box->setWrapping(true);
        connect(m_slider, &QSlider::valueChanged, m_box, &QSpinBox::setMaximum);
        connect(m_box, &QSpinBox::valueChanged, m_slider, &QSlider::setValue);
    }
private:
    QSlider *m_slider = new QSlider(this);
    QSpinBox *m_box = new QSpinBox(this);
};

// A twin: two limits in turn.
class Press : public QWidget {
    Q_OBJECT
public:
    Press() { connect(m_box, &QSpinBox::valueChanged, this, &Press::squeeze); }
    void squeeze()
    {
        m_box->setMinimum(5);
        m_box->setMaximum(3);
    }
private:
    QSpinBox *m_box = new QSpinBox(this);
};

// A twin: another box each time.
class Row : public QWidget {
    Q_OBJECT
public:
    void grow(int value)
    {
        auto *box = new QSpinBox(this);
        connect(box, &QSpinBox::valueChanged, this, &Row::grow);
        box->setMinimum(value);
    }
    void add()
    {
        QSpinBox *box = made();
        connect(box, &QSpinBox::valueChanged, this, &Row::add);
        box->setMinimum(1);
    }
private:
    static QSpinBox *made() { return new QSpinBox; }
};

// A twin: an empty title is told though it is the one that is there.
class Titles : public QWidget {
    Q_OBJECT
public:
    Titles()
    {
        connect(this, &QWidget::windowTitleChanged, m_other, &QWidget::setWindowTitle);
        connect(m_other, &QWidget::windowTitleChanged, this, &QWidget::setWindowTitle);
    }
private:
    QWidget *m_other = new QWidget;
};

void all()
{
    new Speed;
    new Fall;
    new Round;
    new Press;
    new Row;
    new Titles;
}
