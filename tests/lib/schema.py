"""Whether a value is of a JSON schema, of those words of schemas that the tree's own use."""

import re


def refusals(schema, value, whole):
    """What is wrong with a value; nothing where it is of the schema, which is a part of the whole one."""
    if "$ref" in schema:
        return refusals(whole["$defs"][schema["$ref"].rpartition("/")[2]], value, whole)
    if "oneOf" in schema:
        tried = [list(refusals(one, value, whole)) for one in schema["oneOf"]]
        return [] if sum(not wrong for wrong in tried) == 1 else min(tried, key=len)
    if "const" in schema:
        return [] if value == schema["const"] else [f"{value!r} for {schema['const']!r}"]
    if "enum" in schema:
        return [] if value in schema["enum"] else [f"{value!r} isn't one of {schema['enum']}"]
    return {"integer": of_integer, "string": of_string, "array": of_array, "object": of_object}[schema["type"]](
        schema, value, whole)


def of_integer(schema, value, _whole):
    least, most = schema.get("minimum", value), schema.get("maximum", value)
    return [] if type(value) is int and least <= value <= most else [f"{value!r} isn't an integer in range"]


def of_string(schema, value, _whole):
    if type(value) is not str:
        return [f"{value!r} is no string"]
    return [] if re.search(schema.get("pattern", ""), value) else [f"{value!r} isn't of {schema['pattern']}"]


def of_array(schema, value, whole):
    if type(value) is not list:
        return [f"{value!r} is no array"]
    return [wrong for one in value for wrong in refusals(schema["items"], one, whole)]


def of_object(schema, value, whole):
    if type(value) is not dict:
        return [f"{value!r} is no object"]
    known = schema["properties"]
    return [*(f"{key} is missing" for key in schema.get("required", []) if key not in value),
            *(f"{key} isn't known" for key in value if key not in known),
            *(f"{key}: {wrong}" for key in value if key in known for wrong in refusals(known[key], value[key], whole))]
