#include "form.h"

Form::Form(QWidget *parent)
    : QWidget(parent)
{
    m_ui.setupUi(this);
}

void Form::on_name_textChanged(const QString &text)
{
    m_ui.name->setText(text + "!"); // fault: the text has changed again
}
