// Set-ups of texts, actions, undo and what stands alone in QtGui.
#include "registry.h"

namespace {

class Highlighter : public QSyntaxHighlighter
{
public:
    using QSyntaxHighlighter::QSyntaxHighlighter;
    void highlightBlock(const QString &) override { recorder::called("highlightBlock"); }
};

class Command : public QUndoCommand
{
public:
    void undo() override { recorder::calledOf("QUndoCommand", "undo"); }
    void redo() override { recorder::calledOf("QUndoCommand", "redo"); }
    int id() const override { return 7; }
    bool mergeWith(const QUndoCommand *) override
    {
        recorder::calledOf("QUndoCommand", "mergeWith");
        return false;
    }
};

const char *const html = "<p>first <b>bold</b> <a href='#x'>link</a></p><p>second</p><ul><li>item</li></ul>";

QUndoStack *filledStack()
{
    auto *it = new QUndoStack;
    it->push(new Command);
    it->push(new Command);
    it->undo();
    return it;
}

template <class T> T *filledEdit(Scene &s)
{
    auto *it = new T;
    it->setPlainText("first line\nsecond line");
    it->selectAll();
    it->insertPlainText("third\nlines\n");
    QTextCursor cursor = it->textCursor();
    cursor.setPosition(2, QTextCursor::KeepAnchor);
    it->setTextCursor(cursor);
    QGuiApplication::clipboard()->setText("paste");
    (void)s;
    return it;
}

QMovie *movie(Scene &s)
{
    // A film of two images, as a file of the format GIF.
    static const QByteArray film = QByteArray::fromBase64(
        "R0lGODlhAgACAPAAAP8AAAAA/yH/C05FVFNDQVBFMi4wAwEAAAAh+QQACgAAACwAAAAAAgACAAACAoRRACH5BAAKAAAALAAAAAACAAIAAAICjFMAOw==");
    auto *file = s.other(new QBuffer);
    file->setData(film);
    file->open(QIODevice::ReadOnly);
    return new QMovie(file);
}

void undone(QTextDocument *it)
{
    QTextCursor(it).insertText("some words");
    QTextCursor last(it);
    last.movePosition(QTextCursor::End);
    last.insertBlock();
    it->undo();
}

void setUpActions()
{
    SET_UP(QAction, "plain", return new QAction("text");)
    SET_UP(QAction, "checkable, in a group", auto *group = s.other(new QActionGroup(nullptr)); auto *it = new QAction("text", group);
           it->setCheckable(true); auto *second = s.other(new QAction("second", group)); second->setCheckable(true);
           second->setChecked(true); return it;)
    SET_UP(QAction, "in a menu and a tool bar", auto *it = new QAction("text"); it->setCheckable(true);
           s.other(new QMenu)->addAction(it); s.other(new QToolBar)->addAction(it); return it;)
    SET_UP(QActionGroup, "two actions", auto *it = new QActionGroup(nullptr); auto *first = s.other(new QAction("a", it));
           first->setCheckable(true); s.other(new QAction("b", it))->setCheckable(true); return it;)
    SET_UP(QShortcut, "plain", return new QShortcut(QKeySequence("Ctrl+A"), s.window);)
    SET_UP(QUndoStack, "two commands", return filledStack();)
    SET_UP(QUndoStack, "empty", return new QUndoStack;)
    SET_UP(QUndoStack, "in a group", auto *it = filledStack(); auto *group = s.other(new QUndoGroup); group->addStack(it);
           group->setActiveStack(it); return it;)
    SET_UP(QUndoStack, "with actions", auto *it = filledStack(); s.other(it->createUndoAction(nullptr));
           s.other(it->createRedoAction(nullptr)); return it;)
    SET_UP(QAction, "that undoes", return s.other(filledStack())->createUndoAction(nullptr);)
    SET_UP(QAction, "that undoes for a group", auto *group = s.other(new QUndoGroup); auto *stack = s.other(filledStack());
           group->addStack(stack); group->setActiveStack(stack); return group->createUndoAction(nullptr);)
    SET_UP(QUndoGroup, "two stacks", auto *it = new QUndoGroup; it->addStack(s.other(new QUndoStack));
           auto *stack = s.other(filledStack()); it->addStack(stack); it->setActiveStack(stack); return it;)
    SET_UP(QClipboard, "the application's", QGuiApplication::clipboard()->setText("before"); return QGuiApplication::clipboard();)
    SET_UP(QMovie, "not started", return movie(s);)
    SET_UP(QMovie, "running", auto *it = movie(s); it->start(); return it;)
    SET_UP(QWindow, "plain", auto *it = new QWindow; it->resize(90, 90); return it;)
    SET_UP(QWindow, "shown", auto *it = new QWindow; it->resize(90, 90); it->show(); return it;)
}

}  // namespace

void setUpTexts()
{
    CALL(QTextList, add, it.add(it.document()->lastBlock());)
    CALL(QUndoStack, ~QUndoStack, delete &it;)
    CALL(QUndoStack, push, it.push(new Command); it.push(new Command);)
    SET_UP(QTextDocument, "alone", auto *it = new QTextDocument; it->setHtml(html); it->setModified(true); return it;)
    SET_UP(QTextDocument, "of an editor", auto *edit = s.other(filledEdit<QTextEdit>(s)); return s.other(edit->document());)
    SET_UP(QTextDocument, "of a plain editor", auto *edit = s.other(filledEdit<QPlainTextEdit>(s)); return s.other(edit->document());)
    SET_UP(QTextCursor, "of a document", auto *it = s.other(new QTextDocument); it->setHtml(html);
           static QTextCursor cursor; cursor = QTextCursor(it); cursor.select(QTextCursor::LineUnderCursor); return &cursor;)
    SET_UP(QTextCursor, "of an editor", auto *edit = s.other(filledEdit<QTextEdit>(s)); static QTextCursor cursor;
           s.other(edit->document()); cursor = QTextCursor(edit->document()); cursor.select(QTextCursor::LineUnderCursor);
           return &cursor;)
    SET_UP(QTextCursor, "of a plain editor", auto *edit = s.other(filledEdit<QPlainTextEdit>(s)); static QTextCursor cursor;
           s.other(edit->document()); cursor = QTextCursor(edit->document()); cursor.select(QTextCursor::LineUnderCursor);
           return &cursor;)
    SET_UP(QTextEdit, "empty", return new QTextEdit;)
    SET_UP(QTextEdit, "with a selection", return filledEdit<QTextEdit>(s);)
    SET_UP(QTextEdit, "of formats", auto *it = new QTextEdit; it->setHtml(html); it->selectAll(); return it;)
    SET_UP(QTextDocument, "with something to redo", auto *it = new QTextDocument; undone(it); return it;)
    SET_UP(QTextCursor, "with something to redo", auto *it = s.other(new QTextDocument); undone(it);
           static QTextCursor cursor; cursor = QTextCursor(it); cursor.select(QTextCursor::LineUnderCursor); return &cursor;)
    SET_UP(QTextEdit, "with something to redo", auto *it = new QTextEdit; undone(it->document()); it->selectAll(); return it;)
    SET_UP(QPlainTextEdit, "with something to redo", auto *it = new QPlainTextEdit; undone(it->document()); it->selectAll(); return it;)
    SET_UP(QTextBrowser, "plain", auto *it = new QTextBrowser; it->setHtml(html); return it;)
    SET_UP(QTextBrowser, "with a history", static QTemporaryDir places;
           for (const char *name : {"a.html", "b.html"}) { QFile file(places.filePath(name)); file.open(QIODevice::WriteOnly);
           file.write(html); } auto *it = new QTextBrowser; it->setSearchPaths({places.path()}); it->setSource(QUrl("a.html"));
           it->setSource(QUrl("b.html")); it->setSource(QUrl("a.html")); it->backward(); return it;)
    SET_UP(QPlainTextEdit, "empty", return new QPlainTextEdit;)
    SET_UP(QPlainTextEdit, "with a selection", return filledEdit<QPlainTextEdit>(s);)
    SET_UP(QSyntaxHighlighter, "on a document", auto *it = s.other(new QTextDocument("a\nb")); return new Highlighter(it);)
    SET_UP(QTextList, "two items", auto *it = s.other(new QTextDocument("a\nb")); QTextCursor cursor(it); cursor.select(
           QTextCursor::Document); return cursor.createList(QTextListFormat::ListDisc);)
    SET_UP(QTextTable, "two rows", auto *it = s.other(new QTextDocument("a\nb")); return QTextCursor(it).insertTable(2, 2);)
    setUpActions();
}
