#include "box.h"
#include <QCoreApplication>

int main(int count, char **words)
{
    QCoreApplication application(count, words);
    Box box;
    return box.loops() ? 5 : 0;
}
