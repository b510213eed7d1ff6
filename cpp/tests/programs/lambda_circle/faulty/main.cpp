#include "mixer.h"
#include <QCoreApplication>

int main(int count, char **words)
{
    QCoreApplication application(count, words);
    Mixer it;
    it.start();
    return 0;
}
