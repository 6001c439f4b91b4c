#!/usr/bin/env python3
"""Keeps of a configuration the attributes of some names: a former text without derived numbers.

  examples/only.py NAME.. <ANSWER >FORMER

ANSWER is what `solve` or `reconfigure` printed; its first line is taken, which is the configuration.
"""
import json
import sys


def only(value, names):
    kept = {}
    for key, part in value.items():
        if key in names:
            kept[key] = part
        elif isinstance(part, dict):
            kept[key] = only(part, names)
        elif isinstance(part, list) and part and isinstance(part[0], dict):
            kept[key] = [only(it, names) for it in part]
    return {key: part for key, part in kept.items() if part != {}}


if __name__ == "__main__":
    json.dump(only(json.loads(sys.stdin.readline()), sys.argv[1:]), sys.stdout)
    print()
