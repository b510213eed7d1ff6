// Progress dialogs, which process events where they are modal.
#include <QtWidgets>

class Quiet : public QProgressDialog {
    Q_OBJECT
public:
    void advance(int value) { setValue(value); }
};

class Copying : public QWidget {
    Q_OBJECT
public:
    Copying()
    {
        m_modal->setWindowModality(Qt::WindowModal);
        connect(this, &Copying::asked, this, &Copying::copy);
        connect(this, &Copying::asked, this, &Copying::copyQuietly);
        QDialog dialog;
        dialog.exec();
    }
    void copy(int value) { m_modal->setValue(value); }
    void copyQuietly(int value) { m_plain->setValue(value); }
signals:
    void asked(int value);
private:
    QProgressDialog *m_modal = new QProgressDialog(this);
    QProgressDialog *m_plain = new QProgressDialog(this);
    Quiet *m_quiet = new Quiet;
};
