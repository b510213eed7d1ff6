#include "gauge.h"
#include <QCoreApplication>

int main(int count, char **words)
{
    QCoreApplication application(count, words);
    Gauge it;
    it.start();
    return 0;
}
