"""As much of JSON Schema as `docs/report.schema.json` uses."""

TYPES = {"object": dict, "array": list, "string": str, "integer": int, "number": (int, float), "null": type(None)}


def faults(root, schema, told, where="$"):
    """What in the data doesn't keep the schema, as texts."""
    if "$ref" in schema:
        found = root
        for part in schema["$ref"].lstrip("#/").split("/"):
            found = found[part]
        return faults(root, found, told, where)
    if "oneOf" in schema:
        kept = [it for it in schema["oneOf"] if not faults(root, it, told, where)]
        return [] if len(kept) == 1 else [f"{where}: {len(kept)} of the forms are kept"]
    if "const" in schema and told != schema["const"]:
        return [f"{where}: isn't {schema['const']}"]
    if "enum" in schema and told not in schema["enum"]:
        return [f"{where}: isn't one of {schema['enum']}"]
    if "type" in schema and not isinstance(told, TYPES[schema["type"]]):
        return [f"{where}: isn't of the type {schema['type']}"]
    found = []
    if isinstance(told, dict):
        found += [f"{where}: lacks {it}" for it in schema.get("required", []) if it not in told]
        known = schema.get("properties", {})
        if schema.get("additionalProperties") is False:
            found += [f"{where}: has {it}" for it in told if it not in known]
        for key, inner in known.items():
            if key in told:
                found += faults(root, inner, told[key], f"{where}.{key}")
    if isinstance(told, list) and "items" in schema:
        for at, it in enumerate(told):
            found += faults(root, schema["items"], it, f"{where}[{at}]")
    return found
