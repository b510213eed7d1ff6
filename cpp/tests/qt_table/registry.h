// The set-ups of all classes and the calls of all functions, each registered by a line.
#pragma once
#include "given.h"
#include <functional>
#include <vector>

struct SetUp {
    const char *cls;
    const char *name;
    std::function<Subject(Scene &)> make;
};

struct Call {
    const char *cls;
    const char *function;
    int variant;
    std::function<bool(const Subject &)> fits;
    std::function<void(const Subject &, Scene &)> run;
};

std::vector<SetUp> &setUps();
std::vector<Call> &calls();

template <class T> T *subjectAs(const Subject &it)
{
    if constexpr (std::is_base_of_v<QObject, T>)
        return dynamic_cast<T *>(it.object);
    else
        return it.type == typeid(T) ? static_cast<T *>(it.plain) : nullptr;
}

template <class T> void setUp(const char *cls, const char *name, T *(*make)(Scene &))
{
    setUps().push_back({cls, name, [=](Scene &scene) {
        T *made = make(scene);
        Subject it;
        it.name = cls;
        if constexpr (std::is_base_of_v<QObject, T>)
            it.object = made;
        else {
            it.plain = made;
            it.type = typeid(T);
        }
        return it;
    }});
}

template <class T> void call(const char *cls, const char *function, int variant, void (*run)(T &, Scene &))
{
    calls().push_back({cls, function, variant, [](const Subject &it) { return subjectAs<T>(it) != nullptr; },
                       [=](const Subject &it, Scene &scene) { run(*subjectAs<T>(it), scene); }});
}

// One line a set-up: the class, what is special, and a body that returns the subject. One line a call: the class, the function, and
// what is done with the subject `it`.
#define SET_UP(T, name, ...) setUp<T>(#T, name, [](Scene &s) -> T * { (void)s; __VA_ARGS__ });
#define CALL(T, function, ...) call<T>(#T, #function, 9, [](T &it, Scene &s) { (void)s; (void)it; __VA_ARGS__; });
