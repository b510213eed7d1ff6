// Qt's own classes, by a table and by their headers.
#include <QtWidgets>

class Form : public QWidget {
    Q_OBJECT
public:
    Form() {
        auto *layout = new QVBoxLayout(this);
        layout->addWidget(m_spin);
        layout->addWidget(m_slider);
        connect(m_spin, &QSpinBox::valueChanged, m_slider, &QSlider::setValue);
        connect(m_slider, &QSlider::valueChanged, m_spin, &QSpinBox::setValue);
        QAction *act = m_menu->addAction("go", this, &Form::go);
        connect(act, &QAction::triggered, this, &Form::go);
        connect(m_button, &QPushButton::clicked, this, &QWidget::close);
        connect(m_button, &QPushButton::clicked, m_button, &QObject::deleteLater);
        m_button->setFlat(true);
    }
    void go() { m_button->click(); m_box->setChecked(true); m_bar->setValue(3); }
    void closeEvent(QCloseEvent *) override { emit closing(); }
signals:
    void closing();
private:
    QSpinBox *m_spin = new QSpinBox;
    QSlider *m_slider = new QSlider;
    QScrollBar *m_bar = new QScrollBar(this);
    QMenu *m_menu = new QMenu(this);
    QPushButton *m_button = new QPushButton(this);
    QCheckBox *m_box = new QCheckBox(this);
};

class Ask : public QDialog {
    Q_OBJECT
public:
    void ok() { accept(); }
};

class Lists : public QWidget {
    Q_OBJECT
public:
    Lists() {
        connect(m_one, &QListWidget::itemChanged, this, &Lists::changed);
        connect(m_other, &QListWidget::itemChanged, this, &Lists::changed);
    }
    void check() { QListWidgetItem *item = m_one->item(0); item->setCheckState(Qt::Checked); }
    void checkNext() { m_other->currentItem()->setCheckState(Qt::Checked); }
    void checkAny(QListWidgetItem *item) { item->setCheckState(Qt::Checked); }
    void changed() { emit told(); }
signals:
    void told();
private:
    QListWidget *m_one = new QListWidget(this);
    QListWidget *m_other = new QListWidget(this);
};

class Cells : public QStandardItemModel {
    Q_OBJECT
public:
    void watch(QTreeView *view) { connect(view->selectionModel(), &QItemSelectionModel::selectionChanged, this, &Cells::edited); }
    bool setData(const QModelIndex &, const QVariant &, int) override { emit edited(); return true; }
signals:
    void edited();
};
