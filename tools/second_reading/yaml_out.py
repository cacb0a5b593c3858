"""Automations as data, printed to YAML in plain block style."""

from __future__ import annotations

import json
import re
from typing import Any, Optional

from .config import Plain, written

PLAIN_KEY = re.compile(r"[A-Za-z_][A-Za-z0-9_]*")


def scalar(value: Any) -> str:
    """A scalar: a str in quotes, all else plain."""
    if value is None:
        return "null"
    if isinstance(value, Plain):
        return str(value)
    if not isinstance(value, str):
        return written(value)
    if any(ord(char) < 32 for char in value):
        return json.dumps(value, ensure_ascii=False)
    return "'" + value.replace("'", "''") + "'"


def key_text(key: str) -> str:
    """A key, in quotes where it has to be."""
    return key if PLAIN_KEY.fullmatch(key) else scalar(key)


def block(value: Any, indent: int) -> list[str]:
    """The lines of a list or map that isn't empty, at an indent."""
    lines: list[str] = []
    pad = " " * indent
    if isinstance(value, list):
        for item in value:
            if isinstance(item, (list, dict)) and item:
                inner = block(item, indent + 2)
                lines += [f"{pad}- {inner[0].lstrip()}"] + inner[1:]
            else:
                lines.append(f"{pad}- {leaf(item)}")
        return lines
    for key, item in value.items():
        if isinstance(item, (list, dict)) and item:
            lines += [f"{pad}{key_text(key)}:"] + block(item, indent + 2)
        else:
            lines.append(f"{pad}{key_text(key)}: {leaf(item)}")
    return lines


def leaf(value: Any) -> str:
    """What stands on its key's line."""
    if isinstance(value, list):
        return "[]"
    return "{}" if isinstance(value, dict) else scalar(value)


def yaml_text(automations: list[dict[str, Any]], scripts: Optional[dict[str, Any]] = None,
              helpers: Optional[dict[str, Any]] = None) -> str:
    """The whole file."""
    if not (automations or scripts or helpers):
        return "[]\n"
    lines = ["automation:"] + block(automations, 2) if automations else ["automation: []"]
    if scripts:
        lines += ["script:"] + block(scripts, 2)
    if helpers:
        lines += block(helpers, 0)
    return "\n".join(lines) + "\n"
