"""What one unit says, as data: read by libclang."""
from __future__ import annotations

import time

from .bodies import Bodies
from .calls import Calls
from .classes import Classes
from .connects import Connects
from .context import Context
from .instances import lacks_bodies
from .libclang import cindex, quick
from .libraries import Includes
from .model import Class, Facts
from .naming_callees import Callees
from .precompiled import Shared
from .templates import any_in
from .units import ANNOTATIONS, Unit, is_generated, real
from .values import Values

ERROR = 3
# Headers that clang has of its own.
OF_CLANG = ('stddef.h', 'stdarg.h', 'float.h', 'limits.h', 'stdint.h')


def read_unit(unit: Unit, roots: list[str], known: dict[str, Class], headers: Shared | None = None) -> Facts:
    """Reads one unit. `known` has the classes of libraries that earlier units have told, `headers` are those that are parsed already: a unit
    that doesn't go with them is read without."""
    facts = _read(unit, roots, known, headers)
    return _read(unit, roots, known, None) if facts.errors and headers is not None else facts


def _read(unit: Unit, roots: list[str], known: dict[str, Class], headers: Shared | None) -> Facts:
    """Reads a unit with the instances of templates, where its text has a template. Where clang's tree has one that the text doesn't show,
    as by a macro, the unit is read again."""
    begun = time.process_time()
    is_whole = any_in(Includes(roots).files(unit))
    facts, has_templates = _read_once(unit, roots, known, headers, is_whole)
    if has_templates and not is_whole:
        facts, _ = _read_once(unit, roots, known, headers, True)
    facts.seconds = time.process_time() - begun
    return facts


def _read_once(unit: Unit, roots: list[str], known: dict[str, Class], headers: Shared | None, is_whole: bool) -> tuple[Facts, bool]:
    """The facts of a unit, and whether it has templates of the application: their instances are there only where it is parsed whole."""
    context = Context(unit.source, roots)
    facts = context.facts
    quick.forget()
    shared = ['-include-pch', headers.path] if headers is not None else []
    try:
        tree = cindex.Index.create(excludeDecls=True).parse(unit.source, args=[*unit.flags, *ANNOTATIONS, *shared],
                                                            options=0 if is_whole else cindex.TranslationUnit.PARSE_INCOMPLETE)
    except cindex.TranslationUnitLoadError:
        facts.errors.append(f'{unit.source}: libclang can\'t read this file with its flags')
        return facts, False
    included = {real(i.include.name) for i in tree.get_includes()}
    facts.errors = errors_of(tree, context)
    facts.files, facts.is_sharing = sorted(included | {unit.source}), headers is not None
    context.classes, context.values, context.callees = Classes(context, known), Values(context), Callees(context)
    context.calls, context.connects = Calls(context), Connects(context)
    context.bodies = Bodies(context)
    context.bodies.unit(tree.cursor)
    for key, cls in facts.classes.items():
        if not cls.inside and cls.defined:
            known[key] = cls
    has_templates = context.has_templates
    facts.lacks_bodies = is_whole and headers is not None and not headers.has_bodies and lacks_bodies(context)
    context.close()
    quick.forget()
    return facts, has_templates


def errors_of(tree: object, context: Context) -> list[str]:
    """Each error of clang in a file of the application, with what is missing."""
    told = []
    for found in tree.diagnostics:  # type: ignore[attr-defined]
        if found.severity < ERROR:
            continue
        file = found.location.file
        name = context.path(file.name)[0] if file else context.facts.source
        inside = context.is_own(name)
        if not inside and found.severity == ERROR:
            continue
        what = found.spelling
        if 'file not found' in what:
            missing = what.split("'")[1] if "'" in what else what
            generated = missing.startswith('ui_') or is_generated(missing)
            what = f'{"build first: " if generated else ""}{missing} isn\'t there'
            if missing in OF_CLANG:
                what += ': install Debian\'s package libclang-common-14-dev, or that of your version'
        told.append(f'{name}:{found.location.line}:{found.location.column}: {what}')
    return list(dict.fromkeys(told))
