"""Where a value isn't what a JSON schema asks, for the words of schemas that docs/verdict.schema.json has. Standard library only."""

TYPES = {"object": dict, "array": list, "string": str, "integer": int}
WORDS = {"$schema", "title", "$defs", "$ref", "type", "required", "additionalProperties", "properties", "items", "enum", "const", "minimum"}


def faults(value, schema, whole=None, path="value"):
    """The faults, as paths in the value. A word that isn't known here is one too."""
    whole = schema if whole is None else whole
    found = [f"{path}: the schema's word {it} isn't known" for it in schema if it not in WORDS]
    if "$ref" in schema:
        return found + faults(value, whole["$defs"][schema["$ref"].removeprefix("#/$defs/")], whole, path)
    if "const" in schema and (value != schema["const"] or type(value) is not type(schema["const"])):
        found.append(f"{path}: {value!r} isn't {schema['const']!r}")
    if "enum" in schema and value not in schema["enum"]:
        found.append(f"{path}: {value!r} is none of {schema['enum']}")
    if "type" in schema and (not isinstance(value, TYPES[schema["type"]]) or isinstance(value, bool)):
        return found + [f"{path}: {value!r} is no {schema['type']}"]
    if value.__class__ is int and value < schema.get("minimum", value):
        found.append(f"{path}: {value} is below {schema['minimum']}")
    if isinstance(value, list):
        found += [fault for at, it in enumerate(value) for fault in faults(it, schema.get("items", {}), whole, f"{path}[{at}]")]
    if isinstance(value, dict):
        known = schema.get("properties", {})
        found += [f"{path}: {it} is missing" for it in schema.get("required", []) if it not in value]
        for name, part in value.items():
            if name in known:
                found += faults(part, known[name], whole, f"{path}.{name}")
            elif schema.get("additionalProperties") is False:
                found.append(f"{path}: {name} isn't a property")
    return found
