"""What the schema of SARIF 2.1.0 asks of the parts that `verdict --sarif` writes: of each object the properties that it has to
have and those that it may have, and of each property what it is. Standard library only."""
import re

# (the schema lets these objects have no other properties than those that it names, of which here are those that are written)
REQUIRED = {
    "log": ["version", "runs"],
    "run": ["tool"],
    "tool": ["driver"],
    "driver": ["name"],
    "rule": ["id"],
    "configuration": [],
    "words": ["text"],
    "result": ["message"],
    "message": ["text"],
    "location": [],
    "physical": ["artifactLocation"],
    "artifact": [],
    "region": ["startLine"],
    "flow": ["threadFlows"],
    "thread": ["locations"],
    "step": [],
}
PROPERTIES = {
    "log": {"$schema": "uri", "version": "version", "runs": ["run"]},
    "run": {"tool": "tool", "results": ["result"], "properties": "bag"},
    "tool": {"driver": "driver"},
    "driver": {"name": "text", "version": "text", "rules": ["rule"]},
    "rule": {"id": "text", "shortDescription": "words", "help": "words", "defaultConfiguration": "configuration", "properties": "bag"},
    "configuration": {"level": "level"},
    "words": {"text": "text"},
    "result": {"ruleId": "text", "level": "level", "message": "message", "locations": ["location"], "relatedLocations": ["location"], "codeFlows": ["flow"], "partialFingerprints": "texts", "properties": "bag"},
    "message": {"text": "literal"},
    "location": {"physicalLocation": "physical", "message": "message"},
    "physical": {"artifactLocation": "artifact", "region": "region"},
    "artifact": {"uri": "uri"},
    "region": {"startLine": "count", "startColumn": "count"},
    "flow": {"threadFlows": ["thread"]},
    "thread": {"locations": ["step"]},
    "step": {"location": "location"},
}
# A list of these may not be empty, if it is there.
FILLED = {("flow", "threadFlows"), ("thread", "locations")}
PLAIN = {
    "text": lambda it: isinstance(it, str),
    # (3.11.5: in a message a single brace begins or ends a placeholder, of which there are none)
    "literal": lambda it: isinstance(it, str) and re.fullmatch(r"(?:[^{}]|\{\{|\}\})*", it),
    "uri": lambda it: isinstance(it, str) and re.fullmatch(r"(?:[A-Za-z0-9\-._~/:?#@!$&'()*+,;=]|%[0-9A-F]{2})*", it),
    "version": lambda it: it == "2.1.0",
    "level": lambda it: it in ("none", "note", "warning", "error"),
    "count": lambda it: isinstance(it, int) and it >= 1,
    "bag": lambda it: isinstance(it, dict),
    "texts": lambda it: isinstance(it, dict) and all(isinstance(part, str) for part in it.values()),
}


def faults(value, kind="log", path="log"):
    """Where the value isn't what the schema asks of an object of this kind, as paths in it."""
    if isinstance(kind, list):
        if not isinstance(value, list):
            return [f"{path}: no list"]
        return [fault for at, it in enumerate(value) for fault in faults(it, kind[0], f"{path}[{at}]")]
    if kind in PLAIN:
        return [] if PLAIN[kind](value) else [f"{path}: {value!r} is no {kind}"]
    if not isinstance(value, dict):
        return [f"{path}: no object"]
    found = [f"{path}: {it} is missing" for it in REQUIRED[kind] if it not in value]
    for name, part in value.items():
        if name not in PROPERTIES[kind]:
            found.append(f"{path}: {name} isn't a property")
        elif (kind, name) in FILLED and not part:
            found.append(f"{path}: {name} is empty")
        else:
            found += faults(part, PROPERTIES[kind][name], f"{path}.{name}")
    return found
