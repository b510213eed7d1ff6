#include "list_viewer.h"

void ListViewer::refresh()
{
    ++m_rows;
    m_source->renew(); // fault: this is what it is called for
}
