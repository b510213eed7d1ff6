#include "list_viewer.h"
#include <QCoreApplication>

int main(int count, char **words)
{
    QCoreApplication application(count, words);
    Source source;
    ListViewer viewer(&source);
    source.renew();
    return 0;
}
