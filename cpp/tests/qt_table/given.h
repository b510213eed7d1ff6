// An argument for each type that public functions take: three of each, so that a call has a first, a second and a third form.
#pragma once
#include "scene.h"

template <class T> T *freshObject(Scene &s)
{
    if constexpr (std::is_same_v<T, QAbstractItemModel>)
        return new QStandardItemModel(2, 2);
    else if constexpr (std::is_same_v<T, QAbstractButton>)
        return new QPushButton("fresh");
    else if constexpr (std::is_same_v<T, QLayout>)
        return new QVBoxLayout;
    else if constexpr (std::is_same_v<T, QAbstractAnimation>)
        return new QPropertyAnimation(s.sibling, "pos");
    else if constexpr (std::is_same_v<T, QIODevice>)
        return new QBuffer;
    else if constexpr (std::is_same_v<T, QAbstractItemDelegate>)
        return new QStyledItemDelegate;
    else if constexpr (std::is_same_v<T, QItemSelectionModel>)
        return new QItemSelectionModel(s.model);
    else if constexpr (std::is_same_v<T, QAbstractItemView>)
        return new QListView;
    else if constexpr (std::is_same_v<T, QValidator>)
        return new QIntValidator(0, 9, nullptr);
    else if constexpr (std::is_same_v<T, QGraphicsEffect>)
        return new QGraphicsBlurEffect;
    else if constexpr (std::is_same_v<T, QAbstractProxyModel>)
        return new QSortFilterProxyModel;
    else if constexpr (std::is_same_v<T, QHeaderView>)
        return new QHeaderView(Qt::Horizontal);
    else if constexpr (std::is_same_v<T, QStyle>)
        return QStyleFactory::create("fusion");
    else if constexpr (std::is_default_constructible_v<T>)
        return new T;
    else
        return nullptr;
}

template <class P> P *givenPointer(Scene &s, int variant, int number)
{
    if constexpr (std::is_same_v<P, bool> || std::is_same_v<P, QString> || std::is_same_v<P, int>)
        return nullptr;
    else if constexpr (std::is_base_of_v<QObject, P>) {
        P *kept = variant ? s.kept<P>() : nullptr;
        if (kept)
            return kept;
        recorder::Pause pause;
        return variant == 2 ? nullptr : s.argument(freshObject<P>(s), number);
    } else if constexpr (std::is_same_v<P, QGraphicsItem>) {
        P *kept = variant ? s.keptItem<P>() : nullptr;
        return kept ? kept : new QGraphicsRectItem(0, 0, 5, 5);
    } else {
        P *kept = variant ? s.keptItem<P>() : nullptr;
        if (kept)
            return kept;
        if constexpr (std::is_default_constructible_v<P>)
            return new P;
        else
            return nullptr;
    }
}

template <class T> struct IsFlags : std::false_type {};
template <class E> struct IsFlags<QFlags<E>> : std::true_type {};

template <class T> T givenValue(Scene &s, int variant)
{
    const char *const texts[] = {"sample", "", "2"};
    const int numbers[] = {1, 0, 2};
    const int number = numbers[variant % 3];
    if constexpr (std::is_same_v<T, bool>)
        return variant % 2 == 0;
    else if constexpr (std::is_arithmetic_v<T>)
        return T(number);
    else if constexpr (std::is_enum_v<T>)
        return static_cast<T>(variant);
    else if constexpr (IsFlags<T>::value)
        return T::fromInt(number);
    else if constexpr (std::is_same_v<T, QString> || std::is_same_v<T, QByteArray> || std::is_same_v<T, QAnyStringView>)
        return T(texts[variant % 3]);
    else if constexpr (std::is_same_v<T, QStringView>)
        return QStringView(u"sample");
    else if constexpr (std::is_same_v<T, QStringList>)
        return variant ? QStringList{"one", "two"} : QStringList{"sample"};
    else if constexpr (std::is_same_v<T, QVariant>)
        return variant == 2 ? QVariant() : variant ? QVariant(2) : QVariant(QString("sample"));
    else if constexpr (std::is_same_v<T, QModelIndex>)
        return s.index(variant);
    else if constexpr (std::is_same_v<T, QPixmap> || std::is_same_v<T, QIcon>) {
        QPixmap made(8, 8);
        made.fill(Qt::red);
        return variant == 2 ? T() : T(made);
    } else if constexpr (std::is_same_v<T, QSize> || std::is_same_v<T, QSizeF>)
        return variant ? T(60, 40) : T(150, 120);
    else if constexpr (std::is_same_v<T, QRect> || std::is_same_v<T, QRectF>)
        return variant ? T(0, 0, 30, 30) : T(5, 5, 150, 120);
    else if constexpr (std::is_same_v<T, QPoint> || std::is_same_v<T, QPointF>)
        return variant ? T(0, 0) : T(20, 30);
    else if constexpr (std::is_same_v<T, QDate>)
        return variant ? QDate(2030, 2, 3) : QDate(2020, 5, 17);
    else if constexpr (std::is_same_v<T, QTime>)
        return variant ? QTime(7, 8) : QTime(17, 18);
    else if constexpr (std::is_same_v<T, QDateTime>)
        return variant ? QDateTime(QDate(2030, 2, 3), QTime(7, 8)) : QDateTime(QDate(2020, 5, 17), QTime(17, 18));
    else if constexpr (std::is_same_v<T, QColor> || std::is_same_v<T, QBrush> || std::is_same_v<T, QPen>)
        return variant ? T(Qt::green) : T(QColor(200, 10, 10));
    else if constexpr (std::is_same_v<T, QPalette>)
        return variant ? QPalette() : QPalette(Qt::red);
    else if constexpr (std::is_same_v<T, QFont>) {
        QFont made;
        made.setPointSize(variant ? 31 : 17);
        return made;
    } else if constexpr (std::is_same_v<T, QUrl>)
        return QUrl("about:blank");
    else if constexpr (std::is_same_v<T, QKeySequence>)
        return QKeySequence(variant ? "Ctrl+K" : "Ctrl+J");
    else if constexpr (std::is_same_v<T, QHostAddress>)
        return QHostAddress(QHostAddress::LocalHost);
    else if constexpr (std::is_same_v<T, QTextCharFormat>) {
        T made;
        made.setFontWeight(QFont::Bold);
        return made;
    } else if constexpr (std::is_same_v<T, QTransform>)
        return QTransform::fromScale(variant ? 1 : 4, variant ? 1 : 4);
    else if constexpr (std::is_same_v<T, QTextCursor>)
        return s.kept<QTextDocument>() ? QTextCursor(s.kept<QTextDocument>()) : QTextCursor();
    else
        return T();
}

template <class T> T given(Scene &s, int variant, int number)
{
    if constexpr (std::is_same_v<T, const char *>)
        return "sample";
    else if constexpr (std::is_pointer_v<T>)
        return givenPointer<std::remove_cv_t<std::remove_pointer_t<T>>>(s, variant, number);
    else
        return givenValue<T>(s, variant);
}
