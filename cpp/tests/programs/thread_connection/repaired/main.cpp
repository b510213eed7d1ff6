#include "master.h"
#include <QCoreApplication>
#include <QTimer>

int main(int count, char **words)
{
    QCoreApplication application(count, words);
    Master master;
    QTimer::singleShot(1500, &application, &QCoreApplication::quit);
    master.start();
    return application.exec();
}
