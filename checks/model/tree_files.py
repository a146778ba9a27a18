"""The files that `Tree.of` takes, as JSON: a text is a file's, and so is {"hex": digits}; null is a directory, {"link": target} a link, {"bad": true}
a bad node. Marks are JSON with lists in place of sets."""

import json


def from_json(text):
    def value(one):
        if isinstance(one, dict):
            return "bad" if "bad" in one else ("link", one["link"].encode()) if "link" in one else bytes.fromhex(one["hex"])
        return one if one is None else one.encode()

    return {path: value(one) for path, one in json.loads(text).items()}


def to_json(files):
    def value(what):
        if what is None:
            return None
        if isinstance(what, tuple):
            return {"link": what[1].decode()}
        return {"bad": True} if what == "bad" else {"hex": what.hex()}

    return json.dumps({path: value(what) for path, what in files.items()})


def marks_from_json(text):
    def value(one):
        return set(one) if isinstance(one, list) else one

    return {path: {name: value(one) for name, one in fields.items()} for path, fields in json.loads(text).items()}


def marks_to_json(marks):
    return json.dumps(marks, default=sorted)
