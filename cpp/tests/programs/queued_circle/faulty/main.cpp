#include "store.h"
#include <QCoreApplication>
#include <QTimer>

int main(int count, char **words)
{
    QCoreApplication application(count, words);
    Store store;
    Saver saver(&store);
    QTimer::singleShot(1500, &application, &QCoreApplication::quit);
    store.change();
    return application.exec();
}
