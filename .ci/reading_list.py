#!/usr/bin/env python3
"""Lists what a reader of the headline has to read: the definitions in specs/ to which the clauses of a function lead, part by
part and page by page, with the number of lines that they take and of the comments beside them, and the sums.
Usage: reading_list.py [--names] [ROOT [FILE FUNCTION]]
(default: the current folder, trace_tool/src/runs.rt, run; --names prints the definitions of each page too)

A definition is followed by its words, as the `use` lines of its page say where they stand. A comment above a definition or
in it belongs to it; `use` lines, headings and blank lines count for nothing. What the headline doesn't say of a run is named
and not followed, as docs/theorem.md, "How much there is to read", tells: when `run` accepts (how texts are read and loaded,
when a certificate is valid, which natives fit), what natives promise, why a machine stops whose program has no certificate
(the sentence on the claims says that a checked one stops at a limit alone), and what is written where nothing runs. Types of
the code (`specs.declared`) and words of the standard library are met by their names. The script fails where a definition
leads to specs/code, which a reader needn't know."""
import os, re, sys

from imports import spread

BESIDE = ['program_commands/specs/Loading: LoadsCertified', 'script_lang/specs/Reads: ReadsScript',  # when `run` accepts
          'rank_check/specs/Checks: Examines', 'native_slots/specs/Misfits: Fits',
          'object_machine/specs/Checked: IsChecked', 'object_machine/specs/Seen: AreKept',  # what natives promise
          'object_machine/specs/Causes: StopsFor',  # why an unchecked machine stops
          'program_commands/specs/Outcomes: outcome_text', 'program_commands/specs/Outcomes: outcome_status']  # where nothing runs
PARTS = [('the claims, and runs', r'object_machine/specs/(?!Causes|Events|Takes)|machine_rules/specs/Good'),
         ('why a run stops', r'object_machine/specs/Causes|machine_rules/specs/Faults'),
         ('events', r'object_machine/specs/(Events|Takes)'), ('rules', r'machine_rules'), ('the state', r'machine_state|trace_entries'),
         ('what is accepted, and written', r'trace_tool|program_commands|command_lines|basic_types/specs/Spelling|class_lang|texts|rank_check'),
         ('objects, connections, event loops, bindings', r'object_tree|connections|event_loops|binding_graph|prop_bindings|delete_later'),
         ('values, expressions, classes', r'')]
WORD = re.compile(r'[^\s(){},;.\[\]]+')
HEAD = re.compile(r'^(?:\s*(?:pub )?(?:unfoldable |abbrev |data |record )+(?:pub )?|pub )([^\s{]\S*)')
CASE = re.compile(r'^\s+([^\s:]+) :(?: |$)')

class Page:
    """One file of specs/: its definitions by name, and what its `use` lines name."""
    def __init__(self, path):
        self.path, self.items, self.names, self.modules = path, {}, {}, {}

    def read(self):
        item, comment = None, []
        for line in open(self.path):
            text = line.rstrip('\n')
            if text.startswith(('use ', 'pub use ')): self.use(text)
            elif not text.strip() or text.lstrip().startswith('-- ----'): item, comment = None, []
            elif text.lstrip().startswith('--'):
                if item and text.startswith(' '): item.lines.append(text)
                else: item, comment = None, comment + [text]
            elif text.startswith(('infix', 'module', 'mutual')): comment = []
            else:
                head, case = HEAD.match(text), CASE.match(text)
                if head: item = self.items.setdefault(head[1], Item(self, head[1]))
                elif not text.startswith(' '): item = self.items.get(text.split()[0], item)  # a further clause
                if item: item.lines += comment
                comment = []
                if item: item.lines.append(text)
                if item and case and not head: self.items.setdefault(case[1], item)
        return self

    def use(self, text):
        for module, part in spread(re.sub(r'^(?:pub |ghost )?use ', '', text).rstrip(';')):
            name, _, other = (part or module).partition(' as ')
            if part: self.names[other or name] = (module, name)
            else: self.modules[other or name.split('.')[-1]] = name

class Item:
    """A definition: its lines, with the comment above it."""
    def __init__(self, page, name): self.page, self.name, self.lines = page, name, []
    def text(self): return '\n'.join(line for line in self.lines if not line.lstrip().startswith('--'))
    def size(self):
        """How many lines the definition takes, and how many the comments."""
        comments = sum(line.lstrip().startswith('--') for line in self.lines)
        return len(self.lines) - comments, comments

class Reading:
    """What has to be read, in the order in which it is met."""
    def __init__(self, root):
        self.root, self.pages, self.items, self.types, self.code, self.beside = root, {}, [], set(), set(), set()

    def page(self, module):
        module = self.passed_on(module)
        parts = module.split('.')
        path = f'{self.root}/crates/{parts[1]}/' + '/'.join(parts[2:]) + '.antt'
        if parts[0] != 'Rattle' or parts[1] == 'std' or not os.path.exists(path): return None
        if path not in self.pages: self.pages[path] = Page(path).read()
        return self.pages[path]

    def passed_on(self, module):
        """The page that a crate passes on under this name (`pub use` in its specs/Lib.antt), or the name itself."""
        parts = module.split('.')
        lib = f'{self.root}/crates/{parts[1]}/specs/Lib.antt'
        if len(parts) != 4 or parts[2] != 'specs' or not os.path.exists(lib): return module
        for line in open(lib):
            found = re.match(r'pub use (\S+?)(?: as (\S+))?$', line.strip())
            if found and (found[2] or found[1].split('.')[-1]) == parts[3]: return found[1]
        return module

    def follow(self, page, text):
        words = set(WORD.findall(text))
        for name, (module, item) in page.names.items():
            if name.replace('◌', '') in words: self.meet(module, item)
        for other, module in page.modules.items():
            for word in re.findall(rf'(?<![\w.]){re.escape(other)}\.(\w+)', text): self.meet(module, word)
        for name, item in page.items.items():
            if name.replace('◌', '') in words: self.need(item)

    def meet(self, module, name):
        if '.declared.' in module: return self.types.add(re.sub(r'\.The[A-Z]\w+', '', module).split('.')[-1])
        page = self.page(module)
        if page and name in page.items: self.need(page.items[name])

    def need(self, item):
        if item in self.items: return
        place = f'{item.page.path[len(self.root) + 8:-5]}: {item.name}'
        if place in BESIDE: return self.beside.add(place)
        if '/specs/code/' in item.page.path: self.code.add(f'{item.page.path}: {item.name}')
        self.items.append(item)
        self.follow(item.page, item.text())

def contract_of(path, function):
    """The clauses of a function in a file of code, and the page that its `use` lines make."""
    page, kept, inside = Page(path), [], False
    for line in open(path):
        if line.startswith('ghost use '): page.use(line.strip())
        if re.match(rf'\s*(?:pub )?fn {function}\b', line): inside = True
        elif inside and (re.match(r'\s*\{\s*$', line) or re.match(r'\s*/// ', line)): break
        elif inside: kept.append(line)
    return page, ''.join(kept)

def main():
    words = [word for word in sys.argv[1:] if word != '--names']
    root = words[0] if words else '.'
    file, function = words[1:3] if len(words) > 2 else ('trace_tool/src/runs.rt', 'run')
    reading = Reading(root)
    reading.follow(*contract_of(f'{root}/crates/{file}', function))
    def told(items, what): print('{:5} {:4}  {}'.format(*(sum(sizes) for sizes in zip(*(item.size() for item in items))), what))
    pages = {}
    for item in reading.items: pages.setdefault(item.page.path[len(root) + 8:], []).append(item)
    print('definitions and comments, in lines')
    for part, pattern in PARTS:
        here = [path for path in pages if re.match(pattern, path)]
        if here: told([item for path in here for item in pages[path]], part)
        for path in here:
            items = pages.pop(path)
            told(items, f'    {path}')
            if '--names' in sys.argv: print('               ' + ', '.join(item.name for item in items))
    told(reading.items, 'in all')
    print('named and not followed:', ', '.join(place for place in BESIDE if place in reading.beside))
    print('types of the code:', ', '.join(sorted(reading.types)))
    if reading.code: print('in specs/code:', ', '.join(sorted(code[len(root) + 8:] for code in reading.code)))
    sys.exit(bool(reading.code))

main()
