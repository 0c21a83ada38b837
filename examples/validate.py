"""Looks whether docs/document.schema.json takes each example, and refuses it with one change: an unknown key, a missing
required key, or a value of another type. Without the package jsonschema it is skipped."""

import copy
import json
import pathlib
import sys

try:
    import jsonschema
except ImportError:
    print("docs/document.schema.json: skipped, no validator (Python's jsonschema) is installed")
    sys.exit(0)

TOP = pathlib.Path(__file__).resolve().parent.parent

# The keys that may be absent where they may stand.
OPTIONAL = {"attributes", "cells", "cospan", "equations", "instance", "monic", "rules", "span", "watches"}


def places(value, path=()):
    """The places of all values within a value."""
    yield path
    if isinstance(value, dict):
        for key in value:
            yield from places(value[key], path + (key,))
    elif isinstance(value, list):
        for number, item in enumerate(value):
            yield from places(item, path + (number,))


def at(value, path):
    for step in path:
        value = value[step]
    return value


def changed(document, path, change):
    """A copy of the document in which the value at the place is what the change gives."""
    if not path:
        return change(copy.deepcopy(document))
    whole = copy.deepcopy(document)
    holder = at(whole, path[:-1])
    holder[path[-1]] = change(holder[path[-1]])
    return whole


def without(value, key):
    return {other: value[other] for other in value if other != key}


def wrong(document):
    """The document with one change, each with words for it."""
    for path in places(document):
        value = at(document, path)
        if isinstance(value, dict):
            yield f"an unknown key at {path}", changed(document, path, lambda value: value | {"unknown": 1})
            yield f"a list at {path}", changed(document, path, lambda value: [])
            for key in value.keys() - OPTIONAL:
                yield f"no {key} at {path}", changed(document, path, lambda value: without(value, key))
        else:
            yield f"an object at {path}", changed(document, path, lambda value: {})
        yield f"a fraction at {path}", changed(document, path, lambda value: 1.5)


def main():
    schema = json.loads((TOP / "docs/document.schema.json").read_text())
    jsonschema.Draft202012Validator.check_schema(schema)
    validator = jsonschema.Draft202012Validator(schema)
    failed = False
    count = 0
    for file in sorted((TOP / "examples").glob("*.json")):
        document = json.loads(file.read_text())
        if not validator.is_valid(document):
            print(f"{file.name}: refused by docs/document.schema.json")
            failed = True
        for words, other in wrong(document):
            count += 1
            if validator.is_valid(other):
                print(f"{file.name}: docs/document.schema.json takes {words}")
                failed = True
    if not failed:
        print(f"docs/document.schema.json: takes each example, and refuses {count} wrong documents")
    sys.exit(failed)


main()
