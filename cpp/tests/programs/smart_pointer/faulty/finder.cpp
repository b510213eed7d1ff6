#include "finder.h"

Finder::Finder(QObject *parent)
    : QObject(parent), m_watcher(std::make_unique<Watcher>())
{
    connect(m_watcher.get(), &Watcher::found, this, &Finder::onFound);
}

void Finder::onFound()
{
    m_watcher.reset(); // fault: the watcher is still telling
}
