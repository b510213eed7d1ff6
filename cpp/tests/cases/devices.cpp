// A device of the application, whose functions Qt calls.
#include <QtCore>

class Log : public QIODevice {
    Q_OBJECT
public:
    void note() { write("x"); }
signals:
    void grown();
protected:
    qint64 readData(char *, qint64) override { return 0; }
    qint64 writeData(const char *, qint64 count) override { emit grown(); return count; }
};

class Reader : public QObject {
    Q_OBJECT
public:
    Reader() { connect(&m_log, &Log::grown, this, &Reader::read); }
    void read() { emit done(); }
signals:
    void done();
private:
    Log m_log;
};
