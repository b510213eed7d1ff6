#include "store.h"

void Store::setSaved(int number)
{
    m_saved = number;
}
