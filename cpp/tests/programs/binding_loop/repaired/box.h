#pragma once
#include <QObject>
#include <QProperty>

// A box whose sides are bound.
class Box : public QObject
{
    Q_OBJECT
    Q_PROPERTY(int width READ width WRITE setWidth NOTIFY widthChanged BINDABLE bindableWidth)
    Q_PROPERTY(int height READ height WRITE setHeight NOTIFY heightChanged BINDABLE bindableHeight)

public:
    explicit Box(QObject *parent = nullptr);
    int width() const { return m_width; }
    void setWidth(int width) { m_width = width; }
    QBindable<int> bindableWidth() { return &m_width; }
    int height() const { return m_height; }
    void setHeight(int height) { m_height = height; }
    QBindable<int> bindableHeight() { return &m_height; }
    bool loops() const;

signals:
    void widthChanged();
    void heightChanged();

private:
    Q_OBJECT_BINDABLE_PROPERTY(Box, int, m_width, &Box::widthChanged)
    Q_OBJECT_BINDABLE_PROPERTY(Box, int, m_height, &Box::heightChanged)
};
