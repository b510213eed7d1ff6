// A mapper of data, which writes what its model has into widgets.
#include <QtWidgets>

class Sheet : public QWidget {
    Q_OBJECT
public:
    Sheet() {
        m_mapper->setModel(m_model);
        m_mapper->addMapping(m_name, 0);
        m_mapper->addMapping(m_text, 1);
        connect(m_name, &QLineEdit::textChanged, this, &Sheet::changed);
        connect(m_text, &QTextEdit::textChanged, this, &Sheet::changed);
        connect(m_other, &QTextEdit::textChanged, this, &Sheet::changed);
    }
    void go() { m_mapper->setCurrentIndex(1); }
    void keep() { m_mapper->submit(); }
signals:
    void changed();
private:
    QStandardItemModel *m_model = new QStandardItemModel;
    QDataWidgetMapper *m_mapper = new QDataWidgetMapper;
    QLineEdit *m_name = new QLineEdit;
    QTextEdit *m_text = new QTextEdit;
    QTextEdit *m_other = new QTextEdit;
};
