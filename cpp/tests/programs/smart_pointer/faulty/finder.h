#pragma once
#include "watcher.h"
#include <memory>

// Keeps a watcher until it found something.
class Finder : public QObject
{
    Q_OBJECT

public:
    explicit Finder(QObject *parent = nullptr);
    void start() { m_watcher->look(); }

private slots:
    void onFound();

private:
    std::unique_ptr<Watcher> m_watcher;
};
