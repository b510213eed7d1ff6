#pragma once
#include "ui_form.h"
#include <QWidget>

// A form whose slot is connected by its name.
class Form : public QWidget
{
    Q_OBJECT

public:
    explicit Form(QWidget *parent = nullptr);
    void start() { m_ui.name->setText("a"); }

private slots:
    void on_name_textChanged(const QString &text);

private:
    Ui::Form m_ui;
};
