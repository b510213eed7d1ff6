#include "tab.h"

void Tab::onButton()
{
    emit closeWanted(this);
    ++m_closings;
}
