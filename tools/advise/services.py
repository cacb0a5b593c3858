"""Calls of the services of automations and of scripts of the file, which Hearth does itself."""

from __future__ import annotations

from difflib import get_close_matches
from typing import Callable, Iterator, Optional

from second_reading.template import holds_template

from .notation import Node
from .template_doubts import no_automation

Say = Callable[[int, str], None]
OWN = ("turn_on", "turn_off", "toggle", "trigger")
OF_SCRIPTS = ("script.turn_on", "script.turn_off", "script.toggle")
WRITTEN = ("homeassistant.turn_on", "homeassistant.turn_off", "homeassistant.toggle")


def ids(node: Optional[Node]) -> Iterator[tuple[str, int]]:
    """The texts of entity ids, with their lines."""
    for one in ([] if node is None else node.items if node.kind == "list" else [node]):
        if not holds_template(one.text):
            yield from ((part.strip(" \t"), one.line) for part in one.text.split(","))


def targets_of(node: Node) -> list[Node]:
    """Both places of a call's target."""
    target = node.get("target")
    return [held for held in (target.get("entity_id") if target is not None else None, node.get("entity_id")) if held is not None]


def call_doubts(node: Node, say: Say, automations: set[str], scripts: set[str]) -> None:
    """What is told of a call."""
    service = node.get("action", "service")
    assert service is not None
    data = node.get("data")
    inside = data.get("entity_id") if data is not None else None
    targets = targets_of(node)
    if scripts:
        script_doubts(node, service, say, scripts)
    if service.text.startswith("automation.") and (service.text.split(".")[1] in OWN or holds_template(service.text)):
        if inside is not None:
            say(inside.line, f"`entity_id` in the data of `{service.text}` names no automation: `target: {{entity_id: ..}}`")
            for entity, line in ids(inside):
                if entity.startswith("automation.") and entity.split(".")[1] not in automations:
                    say(line, no_automation(entity, automations))
        elif not targets:
            say(service.line, f"`{service.text}` without a target does nothing: `target: {{entity_id: automation.name}}`")
    elif service.text in WRITTEN:
        for held in [*targets, inside]:
            for entity, line in ids(held):
                if entity.startswith("automation."):
                    say(line, f"`{service.text}` of an automation is written as a call, and switches nothing: "
                              f"`automation.{service.text.split('.')[1]}`")


def script_doubts(node: Node, service: Node, say: Say, scripts: set[str]) -> None:
    """What is told of a call that is meant for a script of the file."""
    targets = targets_of(node)
    named = [(entity, line) for held in targets for entity, line in ids(held) if entity.startswith("script.")]
    if service.text in ("script.turn_on", "script.turn_off"):
        switch_doubts(node, service, say, scripts)
    elif service.text in (*OF_SCRIPTS, *WRITTEN):
        for entity, line in named:
            if entity.split(".")[1] in scripts:
                say(line, f"`{service.text}` of a script is written as a call, and starts or ends nothing: `script.turn_on`, `script.turn_off`")
    elif service.text.startswith("script.") and service.text.split(".")[1] in scripts:
        if targets:
            say(targets[0].line, f"the target of `{service.text}` is not used: hand it over in `data`")
    elif close := near(service.text, scripts):
        say(service.line, f"no script of the file is `{service.text}`, and the call is written: `{close}`")


def switch_doubts(node: Node, service: Node, say: Say, scripts: set[str]) -> None:
    """What is told of `script.turn_on` and `script.turn_off`."""
    data, targets = node.get("data"), targets_of(node)
    for key, value in data.pairs if data is not None else []:
        if key.text == "entity_id":
            say(value.line, f"`entity_id` in the data of `{service.text}` names no script: `target: {{entity_id: ..}}`")
        elif key.text != "variables" and service.text == "script.turn_on":
            say(key.line, f"`{key.text}` in the data of `script.turn_on` is not handed over: `data: {{variables: {{{key.text}: ..}}}}`")
    if not targets and (data is None or data.get("entity_id") is None):
        say(service.line, f"`{service.text}` without a target does nothing: `target: {{entity_id: script.name}}`")
    for held in targets:
        for entity, line in ids(held):
            if not entity.startswith("script.") or entity.split(".")[1] not in scripts:
                close = near(entity, scripts)
                say(line, f"no script of the file is `{entity}`, and `{service.text}` reaches no other" + (f": `{close}`" if close else ""))


def near(entity: str, scripts: set[str]) -> str:
    """The script of the file whose name is like that of an entity; nothing where none is."""
    found = get_close_matches(entity[7:], sorted(scripts), 1, 0.7) if entity.startswith("script.") and entity not in OF_SCRIPTS else []
    return f"script.{found[0]}" if found else ""
