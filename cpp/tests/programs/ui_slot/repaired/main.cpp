#include "form.h"
#include <QApplication>

int main(int count, char **words)
{
    QApplication application(count, words);
    Form it;
    it.start();
    return 0;
}
