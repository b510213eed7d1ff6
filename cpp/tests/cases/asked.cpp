// Circles by signals that carry no value: what hears one asks for it.
#include <QPlainTextEdit>

class Level : public QObject
{
    Q_OBJECT
    Q_PROPERTY(int value READ value WRITE setValue NOTIFY valueChanged)
public:
    int value() const { return m_value; }
    void setValue(int value)
    {
        if (m_value == value)
            return;
        m_value = value;
        emit valueChanged();
    }
signals:
    void valueChanged();

private:
    int m_value = 0;
};

// Each is set to what the other one has: this comes to rest.
class Pair : public QObject
{
    Q_OBJECT
public:
    Pair()
    {
        connect(&m_one, &Level::valueChanged, this, [this] { m_two.setValue(m_one.value()); });
        connect(&m_two, &Level::valueChanged, this, &Pair::back);
    }

private:
    void back()
    {
        int value = m_two.value();
        m_one.setValue(value);
    }
    Level m_one, m_two;
};

// What is asked isn't what was set.
class Apart : public QObject
{
    Q_OBJECT
public:
    Apart()
    {
        connect(&m_left, &Level::valueChanged, this, [this] { m_right.setValue(m_third.value()); });
        connect(&m_right, &Level::valueChanged, this, [this] { m_left.setValue(m_right.value()); });
    }

private:
    Level m_left, m_right, m_third;
};

// What is set isn't what was asked.
class Rising : public QObject
{
    Q_OBJECT
public:
    Rising()
    {
        connect(&m_low, &Level::valueChanged, this, [this] { m_high.setValue(m_low.value() + 1); });
        connect(&m_high, &Level::valueChanged, this, [this] { m_low.setValue(m_high.value()); });
    }

private:
    Level m_low, m_high;
};

// A variable that is changed isn't what was asked.
class Capped : public QObject
{
    Q_OBJECT
public:
    Capped()
    {
        connect(&m_first, &Level::valueChanged, this, [this] { m_second.setValue(m_first.value()); });
        connect(&m_second, &Level::valueChanged, this, [this] {
            int value = m_second.value();
            if (value > 9)
                value -= 9;
            m_first.setValue(value);
        });
    }

private:
    Level m_first, m_second;
};

// A narrower variable holds another value.
class Narrow : public QObject
{
    Q_OBJECT
public:
    Narrow()
    {
        connect(&m_wide, &Level::valueChanged, this, [this] { m_thin.setValue(m_wide.value()); });
        connect(&m_thin, &Level::valueChanged, this, [this] {
            const short value = m_thin.value();
            m_wide.setValue(value);
        });
    }

private:
    Level m_wide, m_thin;
};

// What was asked once is of old.
class Late : public QObject
{
    Q_OBJECT
public:
    Late()
    {
        const int value = m_before.value();
        connect(&m_before, &Level::valueChanged, this, [this, value] { m_after.setValue(value); });
        connect(&m_after, &Level::valueChanged, this, [this] { m_before.setValue(m_after.value()); });
    }

private:
    Level m_before, m_after;
};

// Any of several may be asked.
class Several : public QObject
{
    Q_OBJECT
public:
    void add(Level *level)
    {
        m_all.append(level);
        connect(&m_main, &Level::valueChanged, this, [this] { m_all.first()->setValue(m_main.value()); });
        connect(level, &Level::valueChanged, this, [this] { m_main.setValue(m_all.last()->value()); });
    }
    void make() { add(new Level); }

private:
    QList<Level *> m_all;
    Level m_main;
};

// Two texts that follow each other go on without end: an edit tells a text that it has already.
class Texts : public QObject
{
    Q_OBJECT
public:
    Texts()
    {
        connect(&m_here, &QPlainTextEdit::textChanged, this, [this] { m_there.setPlainText(m_here.toPlainText()); });
        connect(&m_there, &QPlainTextEdit::textChanged, this, [this] { m_here.setPlainText(m_there.toPlainText()); });
    }

private:
    QPlainTextEdit m_here, m_there;
};

// .. but not where one of the two compares.
class Note : public QObject
{
    Q_OBJECT
public:
    QString text() const { return m_text; }
    void setText(const QString &text)
    {
        if (text == m_text)
            return;
        m_text = text;
        emit textChanged(text);
    }
signals:
    void textChanged(const QString &text);

private:
    QString m_text;
};

class Editor : public QObject
{
    Q_OBJECT
public:
    Editor()
    {
        connect(&m_edit, &QPlainTextEdit::textChanged, this, [this] { m_note.setText(m_edit.toPlainText()); });
        connect(&m_note, &Note::textChanged, &m_edit, &QPlainTextEdit::setPlainText);
    }

private:
    QPlainTextEdit m_edit;
    Note m_note;
};
