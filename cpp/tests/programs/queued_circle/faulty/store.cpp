#include "store.h"

void Store::setSaved(int number)
{
    m_saved = number;
    emit changed(); // fault: that it is saved is a change, which is saved
}
