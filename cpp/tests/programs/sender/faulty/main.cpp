#include "panel.h"
#include <QCoreApplication>

int main(int count, char **words)
{
    QCoreApplication application(count, words);
    Panel it;
    it.start();
    return 0;
}
