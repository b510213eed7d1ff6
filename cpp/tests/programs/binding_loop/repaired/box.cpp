#include "box.h"

Box::Box(QObject *parent)
    : QObject(parent)
{
    m_height.setBinding([this] { return m_width.value() * 2; });
    m_width = 4;
}

bool Box::loops() const
{
    const auto error = [](const QUntypedPropertyBinding &it) { return it.error().type() == QPropertyBindingError::BindingLoop; };
    return error(m_width.binding()) || error(m_height.binding());
}
