#pragma once
#include <QObject>

// A page with a button that closes it.
class Tab : public QObject
{
    Q_OBJECT

public:
    using QObject::QObject;

public slots:
    void onButton();

signals:
    void closeWanted(Tab *tab);

private:
    int m_closings = 0;
};
