// An animation tells of its value as it is set up, started and moved.
#include <QtCore>

class Fade : public QObject {
    Q_OBJECT
public:
    Fade() { connect(&m_animation, &QVariantAnimation::valueChanged, this, &Fade::shift); }
    void shift(const QVariant &) { m_animation.setEndValue(m_end++); }
    void move() { m_animation.setCurrentTime(3); }
    void start() { m_animation.start(); }
private:
    QVariantAnimation m_animation;
    int m_end = 1;
};

void use()
{
    Fade fade;
    fade.move();
    fade.start();
}
