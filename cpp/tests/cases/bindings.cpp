// Bindable properties.
#include <QtCore>

class Box : public QObject {
    Q_OBJECT
public:
    Box() {
        m_area.setBinding([this] { return m_width.value() * m_width.value(); });
        m_watch = m_area.onValueChanged([this] { emit seen(); });
    }
    void grow() { m_width = 3; }
signals:
    void seen();
    void widthChanged();
private:
    Q_OBJECT_BINDABLE_PROPERTY(Box, int, m_width, &Box::widthChanged)
    QProperty<int> m_area;
    QPropertyNotifier m_watch;
};
