#include "window.h"
#include <QCoreApplication>

int main(int count, char **words)
{
    QCoreApplication application(count, words);
    Window it;
    it.start();
    return 0;
}
