"""Asks Python's json module which lines are one JSON object, and compares with what the model says.

Standard input has a line for each: its bytes in hex (`-` for none), and `yes` or `no`. Exit status 0 if
all agree, 1 if one differs, 2 if there was nothing to compare.

The module takes more than RFC 8259 and 02 do, so the question is put so that both answer the same one:
- bytes are decoded first, strictly: Python's UTF-8 has no surrogates, overlong forms or byte order mark
  (json.loads refuses a text that begins with one);
- NaN, Infinity and -Infinity, which the module takes, are refused by parse_constant;
- numbers stay text, so that no number is too long to convert;
- members are kept as pairs, since a dict would drop repeated ones and hide how deep they are;
- the module has no limit of depth but the interpreter's, so the depth is counted here, and a text that
  ends in a RecursionError is too deep;
- a lone surrogate escape is taken by both, and needs nothing.
"""

import json
import sys

DEPTH = 16


class Members(list):
    """An object's members as pairs."""


def refused(name):
    raise ValueError(name)


def is_too_deep(value):
    """Whether objects and arrays stand deeper inside each other than DEPTH, the value being 1."""
    left = [(value, 1)]
    while left:
        value, depth = left.pop()
        if isinstance(value, list):
            if depth > DEPTH:
                return True
            inside = [pair[1] for pair in value] if isinstance(value, Members) else value
            left.extend((item, depth + 1) for item in inside)
    return False


def is_object(line):
    """Whether the line is one JSON object, and not too deep."""
    try:
        value = json.loads(
            line.decode("utf-8"),
            object_pairs_hook=Members,
            parse_constant=refused,
            parse_float=str,
            parse_int=str,
        )
    except (ValueError, RecursionError):
        return False
    return isinstance(value, Members) and not is_too_deep(value)


def main():
    asked = {"yes": 0, "no": 0}
    for entry in sys.stdin:
        digits, answer = entry.split()
        line = b"" if digits == "-" else bytes.fromhex(digits)
        asked[answer] += 1
        if is_object(line) != (answer == "yes"):
            print(f"json says otherwise than {answer}: {line!r}\n{digits}")
            return 1
    print(f"json agrees on {asked['yes']} lines that are one object and {asked['no']} that are none")
    return 0 if min(asked.values()) > 0 else 2


sys.exit(main())
