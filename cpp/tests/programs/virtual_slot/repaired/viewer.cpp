#include "source.h"

Viewer::Viewer(Source *source, QObject *parent)
    : QObject(parent), m_source(source)
{
    connect(m_source, &Source::renewed, this, &Viewer::refresh);
}
