#include "list_viewer.h"

void ListViewer::refresh()
{
    ++m_rows;
}
