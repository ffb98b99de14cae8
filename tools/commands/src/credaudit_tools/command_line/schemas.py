"""What the commands write with `--json`: the fields of each object and their kinds, as the manual pages have them.

Each document begins with its format, a number. A field that goes, comes or changes makes it a new one.
"""
import json
from collections.abc import Iterator

FORMAT = 1
KINDS: dict[str, tuple[type, ...]] = {"text": (str,), "number": (int,), "flag": (bool,), "null": (type(None),)}
Schema = dict[str, object]


def fits(value: object, schema: object) -> bool:
    """Whether a value has exactly the fields and kinds of a schema."""
    if isinstance(schema, dict):
        return isinstance(value, dict) and list(value) == list(schema) and \
            all(fits(value[key], each) for key, each in schema.items())
    if isinstance(schema, list):
        return isinstance(value, list) and all(fits(each, schema[0]) for each in value)
    assert isinstance(schema, str)
    return any(isinstance(value, kind) and (kind is not int or not isinstance(value, bool))
               for word in schema.split(" or ") for kind in KINDS[word])


def lines(schema: Schema, front: str = "") -> Iterator[str]:
    """The fields of a schema as a page tells them: path and kind, `[]` for the elements of an array."""
    for key, each in schema.items():
        name, inside = front + key, each
        while isinstance(inside, list):
            name, inside = name + "[]", inside[0]
        if isinstance(inside, dict):
            yield from lines(inside, name + ".")
        else:
            yield f"{name}: {inside}"


def written(document: dict[str, object]) -> str:
    """The text of a document, ASCII alone."""
    return json.dumps(document, indent=1)
