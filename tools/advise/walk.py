"""An automation or script that is taken, gone over as a run would go: what its templates see, and what each is for."""

from __future__ import annotations

from typing import Callable, Mapping, Optional

from second_reading.config import FLAGS
from second_reading.template import holds_template, parse
from second_reading.values import is_entity

from .helped import Helpers, helper_doubts
from .notation import Node
from .services import call_doubts
from .shapes import Fields, Shape, is_list, joined, kind_of, of_data, of_triggers
from .template_doubts import TemplateDoubts, article, no_automation

Blocks = list[dict[str, Shape]]
Known = tuple[set[str], set[str], Helpers]
SaysYes = ("true", "yes", "on", "enable")
OWN = ("trigger", "repeat", "wait")
LISTED = {
    "entity": "as a YAML list, `[light.a, light.b]`, or one text with commas",
    "data": "as YAML, with a template in each item: `[255, 0, 0]`",
}


def several(node: Optional[Node]) -> list[Node]:
    """A list, one item alone, or null for none; without what is disabled."""
    items = [] if node is None or node.kind == "null" else node.items if node.kind == "list" else [node]
    return [item for item in items if not is_disabled(item)]


def is_disabled(node: Node) -> bool:
    """Whether `enabled` says no."""
    found = node.get("enabled")
    return found is not None and FLAGS.get(found.text.lower()) is False


class Walk:
    """Goes over one automation or script, and says what nobody can have meant."""

    def __init__(self, node: Node, entity: str, known: Known, say: Callable[[int, str], None]) -> None:
        self.node = node
        self.entity = entity
        self.automations, self.scripts, self.helpers = known
        self.say = say
        self.hands_over = False

    def go(self) -> None:
        """The whole automation."""
        triggers = several(self.node.get("triggers", "trigger"))
        self.triggers(triggers)
        sees: dict[str, Shape] = {"trigger": of_triggers(triggers)}
        for condition in several(self.node.get("conditions", "condition")):
            self.condition(condition, sees)
        self.script(self.node.get("actions", "action"), [sees])

    def go_script(self) -> None:
        """The whole script, to which a call may hand over any name."""
        self.hands_over = True
        self.script(self.node.get("sequence"), [{"trigger": "any"}])

    # Templates

    def template(self, node: Node, names: Mapping[str, Shape], role: str) -> Shape:
        """A text with tags; what is known of the value that it gives."""
        doubts = TemplateDoubts(names, lambda at, text: self.say(node.line_of(at), text), self.automations, self.entity)
        doubts.hands_over = self.hands_over
        shown = doubts.shown(node.text)
        for at, shape in shown:
            self.shown(node.line_of(at), shape, role)
        alone = len(shown) == 1 and all(piece.kind == "show" or not piece.word.strip() for piece in parse(node.text))
        return shown[0][1] if alone and shown[0][1] in ("whole", "fixed", "flag") else "any"

    def shown(self, line: int, shape: Shape, role: str) -> None:
        """What a template shows, by what it is for."""
        if is_list(shape):
            self.say(line, f"{article(shape)} printed as text is a fault at each run: {LISTED.get(role, LISTED['data'])}")
        elif role in ("delay", "count") and shape in ("fixed", "decimal"):
            what = "a number with a point" if shape == "fixed" else "an `input_number`, whose state has a point,"
            self.say(line, f"{what} as a {role} is a fault at each run: `{{{{ x|int }}}}`")

    def form(self, node: Node, names: Mapping[str, Shape], role: str = "data") -> Shape:
        """A value of data."""
        if node.kind == "map":
            return Fields("map", {key.text: self.form(value, names, role) for key, value in node.pairs})
        for item in node.items:
            self.form(item, names, role)
        if node.is_scalar() and holds_template(node.text):
            return self.template(node, names, role)
        return of_data(node)

    def test(self, node: Node, names: Mapping[str, Shape], what: str) -> None:
        """A template that has to be true."""
        self.template(node, names, "test")
        text = node.text.strip()
        if holds_template(text) or text.lower() in (*SaysYes, "false", "no", "off") or text.isdigit():
            return
        if what == "action" and is_entity(text):
            self.say(node.line, f"`{text}` is a condition that is never true: `- action: {text}`")
        else:
            self.say(node.line, f"`{text}`, a condition without braces, is never true: `\"{{{{ {text} }}}}\"`")

    def span(self, node: Optional[Node], names: Mapping[str, Shape]) -> None:
        """A delay or a timeout."""
        if node is not None:
            self.form(node, names, "delay")

    # Triggers and conditions

    def triggers(self, triggers: list[Node]) -> None:
        """Triggers, whose templates see no variables."""
        for trigger in triggers:
            self.entities(trigger.get("entity_id"))
            template = trigger.get("value_template")
            if kind_of(trigger) == "template" and template is not None:
                self.test(template, {}, "trigger")

    def entities(self, node: Optional[Node]) -> None:
        """Entity ids that are written out."""
        for one in several(node):
            for entity in one.text.split(",") if not holds_template(one.text) else []:
                found = entity.strip(" \t")
                if found.startswith("automation.") and found.split(".")[1] not in self.automations:
                    self.say(one.line, no_automation(found, self.automations))

    def condition(self, node: Node, names: Mapping[str, Shape], what: str = "condition") -> None:
        """A condition."""
        if node.is_scalar():
            self.test(node, names, what)
            return
        inner = node.get("and", "or", "not", "conditions")
        for one in several(inner):
            self.condition(one, names)
        self.entities(node.get("entity_id"))
        template = node.get("value_template")
        if template is not None:
            self.test(template, names, what)

    # Actions

    def script(self, node: Optional[Node], blocks: Blocks) -> None:
        """A list of actions."""
        for action in several(node):
            self.action(action, blocks)

    def action(self, node: Node, blocks: Blocks) -> None:
        """One action."""
        names = visible(blocks)
        if node.is_scalar() or node.get("condition", "and", "or", "not") is not None:
            self.condition(node, names, "action")
        elif node.get("action", "service") is not None:
            self.call(node, names)
        elif (data := node.get("variables")) is not None:
            for key, value in data.pairs:
                assign(blocks, key.text, self.form(value, visible(blocks)))
        elif node.get("wait_template", "wait_for_trigger") is not None:
            self.wait(node, blocks)
        elif (repeat := node.get("repeat")) is not None:
            self.repeat(repeat, blocks)
        elif node.get("parallel") is not None:
            for branch in several(node.get("parallel")):
                self.script(branch, [dict(block) for block in blocks] + [{}])
        else:
            self.plain(node, blocks, names)

    def plain(self, node: Node, blocks: Blocks, names: Mapping[str, Shape]) -> None:
        """A delay, an event, or lists of actions."""
        self.span(node.get("delay"), names)
        if (data := node.get("event_data")) is not None:
            self.form(data, names)
        for one in several(node.get("if")):
            self.condition(one, names)
        for option in several(node.get("choose")):
            for one in several(option.get("conditions")):
                self.condition(one, names)
            self.script(option.get("sequence"), blocks + [{}])
        for key in ("then", "else", "default", "sequence"):
            self.script(node.get(key), blocks + [{}])

    def call(self, node: Node, names: Mapping[str, Shape]) -> None:
        """A call of a service."""
        service = node.get("action", "service")
        assert service is not None
        if holds_template(service.text):
            self.template(service, names, "service")
        target = node.get("target")
        for held in (target.get("entity_id") if target is not None else None, node.get("entity_id")):
            self.entities(held)
            if held is not None:
                self.form(held, names, "entity")
        if (data := node.get("data")) is not None:
            self.form(data, names)
        call_doubts(node, self.say, self.automations, self.scripts)
        helper_doubts(node, self.say, self.helpers)

    def wait(self, node: Node, blocks: Blocks) -> None:
        """A wait, and what it leaves."""
        names = visible(blocks)
        template = node.get("wait_template")
        triggers = several(node.get("wait_for_trigger"))
        if template is not None:
            self.test(template, names, "wait")
        self.triggers(triggers)
        self.span(node.get("timeout"), names)
        gives: Shape = of_triggers(triggers) if triggers else "any"
        blocks[-1]["wait"] = Fields("wait", {"completed": "flag", "remaining": "any", "trigger": gives})

    def repeat(self, node: Node, blocks: Blocks) -> None:
        """A repeat."""
        turn: dict[str, Shape] = {"index": "whole", "first": "flag"}
        names = visible(blocks)
        count, items = node.get("count"), node.get("for_each")
        if count is not None or items is not None:
            turn["last"] = "flag"
        if count is not None and holds_template(count.text):
            self.template(count, names, "count")
        if items is not None:
            shapes = [self.form(item, names) for item in items.items]
            turn["item"] = shapes[0] if shapes else "any"
            for shape in shapes[1:]:
                turn["item"] = joined(turn["item"], shape)
        repeat: dict[str, Shape] = {"repeat": Fields("repeat", turn)}
        for one in several(node.get("while")):
            self.condition(one, {**names, **repeat})
        self.script(node.get("sequence"), blocks + [dict(repeat)])
        for one in several(node.get("until")):
            self.condition(one, {**visible(blocks), **repeat})


def visible(blocks: Blocks) -> dict[str, Shape]:
    """The names that are seen inside some blocks."""
    return {name: shape for block in blocks for name, shape in block.items()}


def assign(blocks: Blocks, name: str, shape: Shape) -> None:
    """Sets a name in the innermost block that has it, else in the innermost one."""
    if name in OWN or name in blocks[-1] or not any(name in block for block in blocks):
        blocks[-1][name] = shape
        return
    held = next(block for block in reversed(blocks) if name in block)
    held[name] = joined(held[name], shape)
