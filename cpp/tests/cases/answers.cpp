// Slots that run an event loop: what waits for their answer doesn't ask again meanwhile.
#include <QEventLoop>
#include <QNetworkAccessManager>
#include <QNetworkReply>
#include <QSslSocket>

class Fetcher : public QObject {
    Q_OBJECT
public:
    Fetcher()
    {
        connect(&m_manager, &QNetworkAccessManager::authenticationRequired, this, &Fetcher::logIn);
        connect(m_reply, &QNetworkReply::sslErrors, this, &Fetcher::trustReply);
        connect(m_socket, &QSslSocket::sslErrors, this, &Fetcher::trustSocket);
        connect(m_reply, &QNetworkReply::finished, this, &Fetcher::finish);
    }
    void logIn() { QEventLoop loop; loop.exec(); }
    void trustReply() { QEventLoop loop; loop.exec(); }
    void trustSocket() { QEventLoop loop; loop.exec(); }
    void finish() { QEventLoop loop; loop.exec(); }

private:
    QNetworkAccessManager m_manager;
    QNetworkReply *m_reply = m_manager.get(QNetworkRequest());
    QSslSocket *m_socket = new QSslSocket;
};
