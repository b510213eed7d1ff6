// Setters that compare first are properties that are set; others emit.
#include <QtCore>

class Kept : public QObject {
    Q_OBJECT
    Q_PROPERTY(int level READ level WRITE setLevel NOTIFY levelChanged)
public:
    int level() const { return m_level; }
    void setLevel(int to) { if (m_level == to) return; m_level = to; emit levelChanged(m_level); }
    void setName(const QString &to) { if (m_name != to) { m_name = to; emit nameChanged(to); } }
    void setMuted(bool to) { if (to == m_muted) return; m_muted = to; emit mutedChanged(); }
    void setDepth(double to) { if (qFuzzyCompare(m_depth, to)) return; m_depth = to; emit depthChanged(to); }
    void setPlace(int to) { if (std::exchange(m_place, to) != to) emit placeChanged(m_place); }
    void setRank(int to) { if (to == qExchange(m_rank, to)) return; emit rankChanged(to); }
    void setAfter(int to) { if (std::exchange(m_after, to + 1) != to) emit afterChanged(to); }
    void setAlways(int to) { m_always = to; emit alwaysChanged(to); }
    void setOther(int to) { if (m_other == to) return; m_other = to + 1; emit otherChanged(m_other); }
    void setClamped(int to) { to = qBound(0, to, 9); if (m_clamped == to) return; m_clamped = to; emit clampedChanged(to); }
    void setShare(int to) {
        if (to < 0) { emit shareChanged(0); } else if (m_share != to) { m_share = to; emit shareChanged(to); }
    }
    void setTwice(int to) { if (m_twice != to) { m_twice = to; emit twiceChanged(to); } emit twiceChanged(0); }
    void setInner(int to) { if (m_inner == to) return; m_inner = to; if (to > 3) emit innerChanged(to); }
signals:
    void levelChanged(int to);
    void nameChanged(const QString &to);
    void mutedChanged();
    void depthChanged(double to);
    void placeChanged(int to);
    void rankChanged(int to);
    void afterChanged(int to);
    void alwaysChanged(int to);
    void otherChanged(int to);
    void clampedChanged(int to);
    void innerChanged(int to);
    void shareChanged(int to);
    void twiceChanged(int to);
private:
    int m_place = 0, m_rank = 0, m_after = 0;
    int m_level = 0, m_always = 0, m_other = 0, m_clamped = 0, m_inner = 0, m_share = 0, m_twice = 0;
    QString m_name;
    bool m_muted = false;
    double m_depth = 0;
};

class Setting : public QObject {
    Q_OBJECT
public:
    void run(Kept *kept, int given, int other) {
        kept->setLevel(given);
        kept->setAlways(7);
        kept->setName("fixed");
        ++other;
        kept->setOther(other);
        kept->setProperty("level", 3);
    }
};
