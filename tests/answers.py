"""Whether a line of JSON is one that docs/answers.schema.json takes; without Debian's python3-jsonschema nobody asks."""

import functools
import importlib.util
import json
import os
import sys

PAGE = os.path.join(os.path.dirname(os.path.dirname(os.path.abspath(__file__))), "docs", "answers.schema.json")
if importlib.util.find_spec("jsonschema") is None:
    # where Debian has it, for a Python that isn't Debian's
    sys.path.append("/usr/lib/python3/dist-packages")
IS_HERE = importlib.util.find_spec("jsonschema") is not None


@functools.cache
def checked():
    from jsonschema import Draft202012Validator
    with open(PAGE, encoding="utf-8") as page:
        return Draft202012Validator(json.load(page))


def others(out):
    """The lines of what was printed that it doesn't take, where objects were printed."""
    if not IS_HERE or not out.startswith(b'{"'):
        return []
    return [line for line in out.split(b"\n")[:-1] if not checked().is_valid(json.loads(line))]
