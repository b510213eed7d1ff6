// A document that Qt makes in an editor, and that a cursor changes.
#include <QtWidgets>

class Notes : public QWidget {
    Q_OBJECT
public:
    Notes() { connect(m_edit->document(), &QTextDocument::contentsChanged, this, &Notes::changed); }
    void write() {
        QTextCursor cursor = m_edit->textCursor();
        cursor.insertText("x");
    }
signals:
    void changed();
private:
    QTextEdit *m_edit = new QTextEdit;
};
