#include "pair.h"
#include <QCoreApplication>

int main(int count, char **words)
{
    QCoreApplication application(count, words);
    Pair it;
    it.start();
    return 0;
}
