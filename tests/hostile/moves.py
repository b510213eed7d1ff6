"""An independent model of a small part of the machine, for runs of random events with many moves between event loops
(docs/machine.md): objects of one class in trees, three event loops and more, connections of each kind, posted calls and
deletions, and a binding from object to object. It says what a script writes, line for line."""

PROGRAM = b"""class Node {
    property int n;
    property int m notify mChanged(int);
    signal mChanged(int);
    signal s(int);
    signal r(int);
    slot hit(int v) { set this.n = v; }
    slot pass(int v) { emit r(v); }
}
owns Node Node;
binding copy Node.m (Node c) = c.n;
""" + b"".join(
    b"wire Node %s(int) -> Node %s(int) %s;\n" % (signal, method, kind)
    for signal, method in ((b"s", b"hit"), (b"s", b"pass"), (b"r", b"hit"))
    for kind in (b"direct", b"queued", b"auto")
)
NAMES = "abcdefgh"
LOOPS = ["main", "io", "net"]


class Node:
    def __init__(self, name, loop):
        self.name, self.loop, self.lives = name, loop, True
        self.parent, self.children = None, []
        self.is_blocked = self.is_scheduled = False
        self.n = self.m = 0


class Connection:
    def __init__(self, sender, signal, receiver, method, kind, is_single):
        self.ends, self.kind, self.is_single = (sender, signal, receiver, method), kind, is_single
        self.sender, self.signal, self.receiver, self.method = self.ends


class Machine:
    """What the events did so far. Each event gives the number that refuses it, or None, and adds its lines."""

    def __init__(self):
        self.nodes, self.connections, self.bindings, self.lines = {}, [], [], []
        # Of each event loop, in the order in which they were added, what waits: a number, an object, and a call or None.
        self.loops, self.posted, self.running = {"main": []}, 0, "main"

    def tell(self, depth, text):
        self.lines.append(f"{depth} {text}")

    def take(self, place, event):
        """Takes an event, the words of a line of the script."""
        self.lines.append(f"event {place}")
        refused = getattr(self, event[0])(*event[1:])
        if refused:
            self.lines[-1] += f" refused {refused}"

    def lacks(self, *names):
        """Why one of the names is no living object."""
        for name in names:
            if name not in self.nodes:
                return 31
            if not self.nodes[name].lives:
                return 32
        return None

    # ---- events

    def loop(self, name):
        if name in self.loops:
            return 43
        self.loops[name] = []

    def turn(self, name):
        if name not in self.loops:
            return 42
        self.running, limit = name, self.posted
        while True:
            due = [it for it in self.loops[name] if it[0] <= limit]
            if not due:
                break
            self.loops[name].remove(due[0])
            _, node, call = due[0]
            if call:
                self.begin(node, *call, 1)
            else:
                self.destroy(node)
        self.running = "main"

    def new(self, name, loop="main"):
        if name in self.nodes:
            return 30
        if loop not in self.loops:
            return 42
        self.nodes[name] = Node(name, loop)

    def adopt(self, parent, child):
        refused = self.lacks(parent, child)
        if refused:
            return refused
        parent, child = self.nodes[parent], self.nodes[child]
        above = parent
        while above:
            if above is child:
                return 35
            above = above.parent
        if parent.loop != child.loop:
            return 36
        if child.parent is not parent:
            if child.parent:
                child.parent.children.remove(child)
            child.parent = parent
            parent.children.append(child)

    def move(self, name, loop):
        refused = self.lacks(name)
        if refused:
            return refused
        if loop not in self.loops:
            return 42
        node = self.nodes[name]
        if node.parent:
            return 48
        if node.loop == loop:
            return None
        moved = below(node)
        if any((target in moved) != (source in moved) for target, source in self.bindings):
            return 49
        waiting = []
        for other, items in self.loops.items():
            if other != loop:
                waiting += [it for it in items if it[1] in moved]
                items[:] = [it for it in items if it[1] not in moved]
        self.loops[loop] += waiting
        for it in moved:
            it.loop = loop

    def connect(self, sender, signal, receiver, method, kind, *options):
        refused = self.lacks(sender, receiver)
        if refused:
            return refused
        ends = (self.nodes[sender], signal, self.nodes[receiver], method)
        if "unique" in options and any(it.ends == ends for it in self.connections):
            return 40
        self.connections.append(Connection(*ends, kind, "single" in options))

    def disconnect(self, sender, signal, receiver, method):
        refused = self.lacks(sender, receiver)
        if refused:
            return refused
        ends = (self.nodes[sender], signal, self.nodes[receiver], method)
        left = [it for it in self.connections if it.ends != ends]
        if len(left) == len(self.connections):
            return 41
        self.connections = left

    def set(self, name, member, value):
        refused = self.lacks(name)
        if refused:
            return refused
        self.write(self.nodes[name], member, value, 1)

    def emit(self, name, signal, value):
        refused = self.lacks(name)
        if refused:
            return refused
        self.emission(self.nodes[name], signal, value, 1)

    def call(self, name, method, value):
        refused = self.lacks(name)
        if refused:
            return refused
        self.begin(self.nodes[name], method, value, 1)

    def bind(self, target, source):
        refused = self.lacks(target, source)
        if refused:
            return refused
        target, source = self.nodes[target], self.nodes[source]
        if target.loop != source.loop:
            return 36
        self.bindings = [it for it in self.bindings if it[0] is not target] + [(target, source)]
        was, target.m = target.m, source.n
        self.tell(1, f"bind {target.name}.m {target.m}")
        if target.m != was:
            self.emission(target, "mChanged", target.m, 2)

    def block(self, name):
        return self.lacks(name) or setattr(self.nodes[name], "is_blocked", True)

    def unblock(self, name):
        return self.lacks(name) or setattr(self.nodes[name], "is_blocked", False)

    def delete(self, name):
        return self.lacks(name) or self.destroy(self.nodes[name])

    def later(self, name):
        refused = self.lacks(name)
        if refused:
            return refused
        node = self.nodes[name]
        if not node.is_scheduled:
            node.is_scheduled = True
            self.post(node, None)
            self.tell(0, f"post {node.loop} ~{name}")

    # ---- what goes on

    def post(self, node, call):
        self.posted += 1
        self.loops[node.loop].append((self.posted, node, call))

    def begin(self, node, method, value, depth):
        self.tell(depth, f"call {node.name}.{method}({value})")
        if method == "hit":
            self.write(node, "n", value, depth + 1)
        else:
            self.emission(node, "r", value, depth + 1)

    def write(self, node, member, value, depth):
        changed = [node] if member == "m" and node.m != value else []
        if member == "m":
            self.bindings = [it for it in self.bindings if it[0] is not node]
        setattr(node, member, value)
        self.tell(depth, f"set {node.name}.{member} {value}")
        for target, source in self.bindings:
            if target.m != source.n:
                target.m = source.n
                changed.append(target)
                self.tell(depth, f"follow {target.name}.m {target.m}")
        for it in changed:
            self.emission(it, "mChanged", it.m, depth + 1)

    def emission(self, node, signal, value, depth):
        self.tell(depth, f"emit {node.name}.{signal}({value})" + " blocked" * node.is_blocked)
        if node.is_blocked:
            return
        for it in [it for it in self.connections if it.sender is node and it.signal == signal]:
            if it.is_single:
                self.connections.remove(it)
            if it.kind == "direct" or (it.kind == "auto" and it.receiver.loop == self.running):
                self.begin(it.receiver, it.method, value, depth + 1)
            else:
                self.post(it.receiver, (it.method, value))
                self.tell(depth, f"post {it.receiver.loop} {it.receiver.name}.{it.method}({value})")

    def destroy(self, node):
        node.lives = False
        if node.parent:
            node.parent.children.remove(node)
        self.bindings = [it for it in self.bindings if node not in it]
        self.tell(1, f"dead {node.name}")
        self.tell(2, f"emit {node.name}.destroyed(null)")
        self.connections = [it for it in self.connections if node not in (it.sender, it.receiver)]
        for items in self.loops.values():
            items[:] = [it for it in items if it[1] is not node]
        while node.children:
            self.destroy(node.children[0])


def below(node):
    """The object and all its descendants."""
    return [node] + [it for child in node.children for it in below(child)]


def event(rng):
    """A random event, in words, each of them a name, a number or a word of the language."""
    name, other = rng.choice(NAMES), rng.choice(NAMES)
    loop = rng.choice(LOOPS + ["far"] if rng.random() < 0.1 else LOOPS)
    ends = [name, *rng.choice([("s", other, "hit"), ("s", other, "pass"), ("r", other, "hit")])]
    value = rng.randrange(4)
    kinds = {
        "move": 18, "new": 4, "adopt": 7, "connect": 14, "disconnect": 1, "emit": 18, "call": 2, "turn": 5, "later": 6,
        "delete": 1, "bind": 5, "set": 4, "block": 1, "unblock": 2, "loop": 1,
    }  # fmt: skip
    kind = rng.choices(list(kinds), kinds.values())[0]
    options = [it for it in ("unique", "single") if rng.random() < 0.2]
    words = {
        "move": [name, loop], "new": [name, loop], "adopt": [name, other], "turn": [loop], "loop": [loop], "bind": [name, other],
        "connect": [*ends, rng.choice(["direct", "queued", "queued", "auto", "auto"]), *options], "disconnect": ends,
        "emit": [name, rng.choice("ssr"), value], "call": [name, rng.choice(["hit", "pass"]), value],
        "set": [name, rng.choice("nm"), value],
    }.get(kind, [name])  # fmt: skip
    return [kind, *words]


def line(kind, *words):
    """The event as a line of a script."""
    if kind in ("connect", "disconnect"):
        sender, signal, receiver, method, *options = words
        return " ".join([kind, sender, f"{signal}(int)", receiver, f"{method}(int)", *options])
    if kind in ("emit", "call"):
        return f"{kind} {words[0]}.{words[1]}({words[2]})"
    if kind == "set":
        return f"set {words[0]}.{words[1]} {words[2]}"
    if kind == "bind":
        return f"bind copy {words[0]} {words[1]}"
    if kind == "new":
        return f"new {words[0]} Node {words[1]}"
    return " ".join([kind, *words])


def script(rng):
    """A random script, and the trace that the model gives for it."""
    events = [["loop", it] for it in LOOPS[1:]] + [["new", it, rng.choice(LOOPS)] for it in NAMES[:5]]
    events += [event(rng) for _ in range(rng.randrange(40, 120))]
    machine = Machine()
    for place, it in enumerate(events, 1):
        machine.take(place, it)
    texts = ["".join(f"{it}\n" for it in lines) for lines in (map(lambda it: line(*it), events), machine.lines)]
    return [it.encode() for it in texts]
