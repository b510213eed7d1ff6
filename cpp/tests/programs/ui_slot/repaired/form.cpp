#include "form.h"

Form::Form(QWidget *parent)
    : QWidget(parent)
{
    m_ui.setupUi(this);
}

void Form::on_name_textChanged(const QString &text)
{
    m_ui.echo->setText(text + "!");
}
