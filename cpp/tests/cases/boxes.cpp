// The model that Qt makes in a box.
#include <QtWidgets>

class Choice : public QWidget {
    Q_OBJECT
public:
    Choice() {
        connect(m_box->model(), &QAbstractItemModel::dataChanged, this, &Choice::look);
        connect(m_box, &QComboBox::editTextChanged, this, &Choice::look);
    }
    void empty() { m_box->clear(); }
    void lock() { qobject_cast<QStandardItemModel *>(m_box->model())->item(0)->setEnabled(false); }
    void look() { emit looked(); }
signals:
    void looked();
private:
    QComboBox *m_box = new QComboBox(this);
};
