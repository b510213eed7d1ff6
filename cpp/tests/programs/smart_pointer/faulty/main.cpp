#include "finder.h"
#include <QCoreApplication>

int main(int count, char **words)
{
    QCoreApplication application(count, words);
    Finder it;
    it.start();
    return 0;
}
