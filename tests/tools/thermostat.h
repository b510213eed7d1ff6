#include <QObject>
namespace Home {
class Sensor : public QObject {
    Q_OBJECT
    Q_PROPERTY(double celsius READ celsius WRITE setCelsius NOTIFY celsiusChanged)
    Q_PROPERTY(Unit unit READ unit WRITE setUnit NOTIFY unitChanged)
    Q_PROPERTY(QString label READ label CONSTANT)
public:
    enum Unit { Celsius, Kelvin };
    Q_ENUM(Unit)
signals:
    void celsiusChanged(double celsius);
    void unitChanged();
    void failed(const QString &why, QIcon icon);
public slots:
    void setCelsius(double celsius);
    void setUnit(Home::Sensor::Unit set);
    void reset();
    void reset(int hard);
};
class Heater : public Sensor, public Mixin {
    Q_OBJECT
    Q_PROPERTY(bool on READ isOn WRITE setOn NOTIFY onChanged)
    Q_PROPERTY(Home::Sensor* source READ source WRITE setSource NOTIFY sourceChanged)
signals:
    void onChanged(bool);
    void sourceChanged(Sensor *source);
public slots:
    void setOn(bool);
    void setSource(Home::Sensor *source);
    void reset();
    void later();
    void note(const QObject *who, QObject *whom, const QString &);
    Q_INVOKABLE int power(int a, int) const;
};
}
