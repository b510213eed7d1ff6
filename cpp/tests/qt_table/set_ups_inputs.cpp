// Set-ups of buttons, fields of input, sliders and what is chosen from.
#include "registry.h"

namespace {

class Slider : public QSlider
{
public:
    void sliderChange(SliderChange change) override
    {
        recorder::called("sliderChange");
        QSlider::sliderChange(change);
    }
};

class Button : public QPushButton
{
public:
    void nextCheckState() override { recorder::called("nextCheckState"); QPushButton::nextCheckState(); }
    void checkStateSet() override { recorder::called("checkStateSet"); QPushButton::checkStateSet(); }
};

class Spin : public QSpinBox
{
public:
    void stepBy(int steps) override { recorder::called("stepBy"); QSpinBox::stepBy(steps); }
    void fixup(QString &text) const override { recorder::called("fixup"); QSpinBox::fixup(text); }
    QString textFromValue(int value) const override { recorder::called("textFromValue"); return QSpinBox::textFromValue(value); }
    int valueFromText(const QString &text) const override { recorder::called("valueFromText"); return QSpinBox::valueFromText(text); }
};

class Combo : public QComboBox
{
public:
    void showPopup() override { recorder::called("showPopup"); QComboBox::showPopup(); }
    void hidePopup() override { recorder::called("hidePopup"); QComboBox::hidePopup(); }
};

}  // namespace

void setUpInputs()
{
    SET_UP(QPushButton, "plain", return new QPushButton("text");)
    SET_UP(QPushButton, "checkable, in a group", auto *it = new QPushButton("text"); it->setCheckable(true);
           auto *group = s.other(new QButtonGroup); group->addButton(it, 3); auto *second = s.other(new QPushButton("second"));
           second->setCheckable(true); second->setChecked(true); group->addButton(second, 4); return it;)
    SET_UP(QPushButton, "in a button box", auto *box = s.other(new QDialogButtonBox);
           return box->addButton(QDialogButtonBox::Ok);)
    SET_UP(QPushButton, "with a menu", auto *it = new QPushButton("text"); it->setMenu(s.other(new QMenu)); return it;)
    SET_UP(QPushButton, "that tells its states", auto *it = new Button; it->setCheckable(true); return it;)
    SET_UP(QSpinBox, "that tells its steps", auto *it = new Spin; it->setValue(5); return it;)
    SET_UP(QComboBox, "that tells its popup", auto *it = new Combo; it->addItems({"one", "two"}); return it;)
    SET_UP(QToolButton, "checkable", auto *it = new QToolButton; it->setCheckable(true); return it;)
    SET_UP(QToolButton, "with an action", auto *it = new QToolButton; auto *action = s.other(new QAction("act"));
           action->setCheckable(true); it->setDefaultAction(action); return it;)
    SET_UP(QCheckBox, "plain", return new QCheckBox("text");)
    SET_UP(QCheckBox, "of three states", auto *it = new QCheckBox("text"); it->setTristate(true);
           it->setCheckState(Qt::PartiallyChecked); return it;)
    SET_UP(QRadioButton, "beside a checked one", auto *box = s.other(new QWidget); auto *second = s.other(new QRadioButton("b", box));
           second->setChecked(true); return new QRadioButton("a", box);)
    SET_UP(QCommandLinkButton, "plain", return new QCommandLinkButton("text");)
    SET_UP(QButtonGroup, "two buttons", auto *it = new QButtonGroup; auto *first = s.other(new QPushButton("a"));
           first->setCheckable(true); first->setChecked(true); it->addButton(first, 1);
           auto *second = s.other(new QPushButton("b")); second->setCheckable(true); it->addButton(second, 2); return it;)
    SET_UP(QDialogButtonBox, "two buttons", return new QDialogButtonBox(QDialogButtonBox::Ok | QDialogButtonBox::Cancel);)
    SET_UP(QGroupBox, "checkable", auto *it = new QGroupBox("title"); it->setCheckable(true); s.other(new QLineEdit(it)); return it;)
    SET_UP(QGroupBox, "plain", return new QGroupBox("title");)
    SET_UP(QLineEdit, "empty", return new QLineEdit;)
    SET_UP(QLineEdit, "with a selection", auto *it = new QLineEdit("some text"); it->insert("x"); it->setSelection(1, 3);
           QGuiApplication::clipboard()->setText("paste"); return it;)
    SET_UP(QLineEdit, "with a completer", auto *it = new QLineEdit("s");
           it->setCompleter(s.other(new QCompleter(QStringList{"sample", "some"}))); return it;)
    SET_UP(QLineEdit, "with a validator", auto *it = new QLineEdit("5");
           it->setValidator(s.other(new QIntValidator(0, 99, nullptr))); return it;)
    SET_UP(QComboBox, "empty", return new QComboBox;)
    SET_UP(QComboBox, "empty and editable", auto *it = new QComboBox; it->setEditable(true); return it;)
    SET_UP(QComboBox, "three items", auto *it = new QComboBox; it->addItems({"one", "two", "three"}); return it;)
    SET_UP(QComboBox, "editable", auto *it = new QComboBox; it->setEditable(true); it->addItems({"sample", "two", "three"});
           it->setCurrentIndex(2); return it;)
    SET_UP(QComboBox, "over a model", auto *it = new QComboBox; it->setModel(s.filledModel()); it->setCurrentIndex(2); return it;)
    SET_UP(QFontComboBox, "empty", auto *it = new QFontComboBox; it->setModel(new QStandardItemModel(it)); return it;)
    SET_UP(QFontComboBox, "plain", return new QFontComboBox;)
    SET_UP(QSpinBox, "in the middle", auto *it = new QSpinBox; it->setRange(-9, 99); it->setValue(5); return it;)
    SET_UP(QSpinBox, "at its end", auto *it = new QSpinBox; it->setRange(0, 3); it->setValue(3); return it;)
    SET_UP(QDoubleSpinBox, "in the middle", auto *it = new QDoubleSpinBox; it->setRange(-9, 99); it->setValue(5.25); return it;)
    SET_UP(QDateTimeEdit, "plain", auto *it = new QDateTimeEdit(QDateTime(QDate(2024, 3, 4), QTime(10, 11))); return it;)
    SET_UP(QDateTimeEdit, "with a calendar", auto *it = new QDateTimeEdit(QDateTime(QDate(2024, 3, 4), QTime(10, 11)));
           it->setCalendarPopup(true); return it;)
    SET_UP(QDateEdit, "plain", return new QDateEdit(QDate(2024, 3, 4));)
    SET_UP(QTimeEdit, "plain", return new QTimeEdit(QTime(10, 11));)
    SET_UP(QSlider, "that tells its changes", auto *it = new Slider; it->setRange(-5, 50); it->setValue(9); return it;)
    SET_UP(QSlider, "in the middle", auto *it = new QSlider(Qt::Horizontal); it->setRange(-5, 50); it->setValue(9); return it;)
    SET_UP(QScrollBar, "in the middle", auto *it = new QScrollBar; it->setRange(-5, 50); it->setValue(9); return it;)
    SET_UP(QDial, "in the middle", auto *it = new QDial; it->setRange(-5, 50); it->setValue(9); return it;)
    SET_UP(QProgressBar, "in the middle", auto *it = new QProgressBar; it->setRange(0, 50); it->setValue(9); return it;)
    SET_UP(QLCDNumber, "plain", return new QLCDNumber(3);)
    SET_UP(QLabel, "text", return new QLabel("text");)
    SET_UP(QLabel, "with a buddy", auto *it = new QLabel("&text"); it->setBuddy(s.sibling); return it;)
    SET_UP(QCalendarWidget, "at the end of a year", auto *it = new QCalendarWidget; it->setSelectedDate(QDate(2023, 12, 4)); return it;)
    SET_UP(QCalendarWidget, "at its beginning", auto *it = new QCalendarWidget; it->setSelectedDate(QDate(2024, 1, 4)); return it;)
    SET_UP(QCalendarWidget, "plain", auto *it = new QCalendarWidget; it->setSelectedDate(QDate(2024, 3, 4)); return it;)
    SET_UP(QKeySequenceEdit, "plain", return new QKeySequenceEdit(QKeySequence("Ctrl+A"));)
    SET_UP(QCompleter, "plain", auto *it = new QCompleter(QStringList{"sample", "some", "other"});
           it->setWidget(s.sibling); return it;)
    SET_UP(QIntValidator, "plain", return new QIntValidator(0, 9, nullptr);)
    SET_UP(QDoubleValidator, "plain", return new QDoubleValidator;)
    SET_UP(QRegularExpressionValidator, "plain", return new QRegularExpressionValidator(QRegularExpression("x*"));)
}
