#include "poller.h"
#include <QCoreApplication>

int main(int count, char **words)
{
    QCoreApplication application(count, words);
    Poller poller;
    poller.start();
    QTimer::singleShot(300, &application, &QCoreApplication::quit);
    return application.exec();
}
