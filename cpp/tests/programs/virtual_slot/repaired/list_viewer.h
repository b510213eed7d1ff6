#pragma once
#include "source.h"

class ListViewer : public Viewer
{
    Q_OBJECT

public:
    using Viewer::Viewer;

public slots:
    void refresh() override;

private:
    int m_rows = 0;
};
