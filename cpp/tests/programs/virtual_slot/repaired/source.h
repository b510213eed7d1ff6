#pragma once
#include <QObject>

// Tells that it has something new.
class Source : public QObject
{
    Q_OBJECT

public:
    using QObject::QObject;
    void renew() { emit renewed(); }

signals:
    void renewed();
};

// Shows a source; what showing means, those below it say.
class Viewer : public QObject
{
    Q_OBJECT

public:
    explicit Viewer(Source *source, QObject *parent = nullptr);

public slots:
    virtual void refresh() {}

protected:
    Source *m_source;
};
