"""Writes the calls of all public functions of Qt's classes whose arguments can be made, read from Qt's headers by libclang: C++ files
in a folder, of some hundred lines `call<QAction>(..)` each, and `functions.json`.

Usage: callers.py FOLDER CLASS.. -- COMPILER_FLAG..   (by a Python that has libclang's module)"""
import json
import re
import sys
from dataclasses import dataclass, field
from pathlib import Path
from typing import Any

import clang.cindex  # type: ignore[import]

HEADERS = "#include <QtWidgets>\n#include <QtNetwork>\n"
ANNOTATE = ["-DQT_ANNOTATE_ACCESS_SPECIFIER(x)=__attribute__((annotate(#x)))", "-DQT_ANNOTATE_FUNCTION(x)=__attribute__((annotate(#x)))"]
PER_FILE = 350
FORMS = 3
# What runs on until somebody ends it, ends the program, or is only for Qt itself.
LEFT_OUT = re.compile(
    r"^(exec|setParent|setViewport|setSocketDescriptor|overrideWindowFlags|wait\w*|qt_\w+|metaObject|event|eventFilter|notify|quit|exit|processEvents|terminate|grabMouse|grabKeyboard|"
    r"print|drag|startDetached|startCommand|data_ptr|operator.*|nativeEvent.*|installNativeEventFilter|removeNativeEventFilter|"
    r"setScreen|create|destroy|moveToThread|killTimer|startSystemMove|startSystemResize|setSurfaceType|setFormat|setVulkanInstance|"
    r"registerUserData|childEvent|accessible\w*|abort|setPaintDevice|setEventDispatcher|requestPhysicalSize|movieDevice|kill)$"
)
ITEMS = {"QListWidgetItem", "QTableWidgetItem", "QTreeWidgetItem", "QStandardItem", "QGraphicsItem", "QMimeData"}


@dataclass
class Method:
    """A public function: its parameters as types that arguments are made for, or why it isn't called."""

    cls: str
    name: str
    types: list[str] = field(default_factory=list)
    why: str = ""


def parameter(kind: Any) -> str | None:
    """The type that an argument is made of, or nothing where none can be."""
    whole = kind.get_canonical()
    if whole.kind == clang.cindex.TypeKind.LVALUEREFERENCE and not whole.get_pointee().is_const_qualified():
        return None
    if whole.kind in (clang.cindex.TypeKind.LVALUEREFERENCE, clang.cindex.TypeKind.RVALUEREFERENCE):
        whole = whole.get_pointee()
    text = re.sub(r"^const (?!char \*)", "", whole.spelling)
    if "std::function" in text or "(*)" in text or "(lambda" in text or text in ("void *", "char *", "void **"):
        return None
    if text.endswith("*") and text != "const char *":
        below = whole.get_pointee().get_declaration()
        plain = re.sub(r"^const | \*$", "", text)
        if plain in ("bool", "QString", "int") or plain in ITEMS or descends(below):
            return text
        return None
    return text


def bases(cursor: Any) -> list[Any]:
    kinds = clang.cindex.CursorKind
    return [it.type.get_declaration() for it in cursor.get_children() if it.kind == kinds.CXX_BASE_SPECIFIER]


def descends(cursor: Any) -> bool:
    """From QObject."""
    whole = cursor.get_definition() or cursor
    return whole.spelling == "QObject" or any(descends(it) for it in bases(whole))


def annotated(cursor: Any) -> set[str]:
    return {it.spelling for it in cursor.get_children() if it.kind == clang.cindex.CursorKind.ANNOTATE_ATTR}


def methods(cursor: Any) -> list[Method]:
    """The public functions of a class that may change something and are its own."""
    kinds = clang.cindex.CursorKind
    found = []
    for it in cursor.get_children():
        if it.kind != kinds.CXX_METHOD or it.access_specifier != clang.cindex.AccessSpecifier.PUBLIC:
            continue
        marks = {x.kind for x in it.get_children()}
        if it.is_const_method() or it.is_static_method() or "qt_signal" in annotated(it) or kinds.CXX_OVERRIDE_ATTR in marks:
            continue
        made = Method(cursor.spelling, it.spelling)
        for argument in it.get_arguments():
            text = parameter(argument.type)
            made.types.append(text or "?")
        if LEFT_OUT.match(it.spelling):
            made.why = "left out"
        elif "?" in made.types:
            made.why = "an argument can't be made"
        found.append(made)
    return found


def read(wanted: list[str], flags: list[str]) -> list[Method]:
    options = clang.cindex.TranslationUnit.PARSE_SKIP_FUNCTION_BODIES
    unit = clang.cindex.Index.create().parse(
        "all.cpp", args=["-std=c++17", "-fPIC", *flags, *ANNOTATE], unsaved_files=[("all.cpp", HEADERS)], options=options
    )
    errors = [str(it) for it in unit.diagnostics if it.severity >= clang.cindex.Diagnostic.Error]
    if errors:
        sys.exit(f"error: libclang can't read Qt's headers: {errors[0]}")
    kinds = clang.cindex.CursorKind
    found: dict[str, list[Method]] = {}
    for it in unit.cursor.get_children():
        if it.kind == kinds.CLASS_DECL and it.is_definition() and it.spelling in wanted:
            found[it.spelling] = methods(it)
    absent = [it for it in wanted if it not in found]
    if absent:
        sys.exit(f"error: Qt's headers have no class {absent[0]}")
    return [it for name in wanted for it in found[name]]


def line(method: Method, form: int) -> str:
    given = ", ".join(f"given<{text}>(s, {form}, {number + 1})" for number, text in enumerate(method.types))
    body = f"(void)it.{method.name}({given});"
    return f'    call<{method.cls}>("{method.cls}", "{method.name}", {form}, []({method.cls} &it, Scene &s) {{ (void)s; {body} }});'


def write(folder: Path, found: list[Method]) -> int:
    """The files of calls; how many there are."""
    lines = [line(it, form) for it in found if not it.why for form in range(FORMS if it.types else 1)]
    parts = [lines[at : at + PER_FILE] for at in range(0, len(lines), PER_FILE)]
    for number, part in enumerate(parts):
        head = f'#include "registry.h"\nvoid registerMade{number}()\n{{\n'
        (folder / f"made{number}.cpp").write_text(head + "\n".join(part) + "\n}\n")
    declared = "".join(f"void registerMade{number}();\n" for number in range(len(parts)))
    body = "".join(f"    registerMade{number}();\n" for number in range(len(parts)))
    (folder / "made.cpp").write_text(f"{declared}void registerMade()\n{{\n{body}}}\n")
    return len(parts)


def main() -> int:
    folder = Path(sys.argv[1])
    split = sys.argv.index("--")
    found = read(sys.argv[2:split], sys.argv[split + 1 :])
    parts = write(folder, found)
    listed = [{"class": it.cls, "function": it.name, "types": it.types, "why": it.why} for it in found]
    (folder / "functions.json").write_text(json.dumps({"parts": parts, "functions": listed}, indent=1) + "\n")
    return 0


if __name__ == "__main__":
    sys.exit(main())
