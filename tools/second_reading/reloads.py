"""Lines that bring another configuration, which is known here as data, as that of the start is."""

from __future__ import annotations

from dataclasses import dataclass
from typing import Any, Iterable, Optional, Union

from .config import Config, read_whole
from .lines import print_value
from .yaml_out import yaml_text


@dataclass(frozen=True)
class Reload:
    """A line that reloads: automations and scripts as data, with helpers that are ignored, or a text that is refused."""

    automations: Optional[list[dict[str, Any]]] = None
    scripts: Optional[dict[str, Any]] = None
    refused: str = ""
    helpers: Optional[dict[str, Any]] = None

    def text(self) -> str:
        """The text that the line brings."""
        return self.refused if self.automations is None else yaml_text(self.automations, self.scripts, self.helpers)

    def line(self) -> str:
        """The line as it is sent."""
        return print_value({"reload": self.text()})

    def config(self) -> Optional[Config]:
        """What the text is; none where it is refused."""
        return None if self.automations is None else read_whole(self.automations, self.scripts)


Line = Union[str, Reload]


def line_text(line: Line) -> str:
    """A line as it is sent."""
    return line.line() if isinstance(line, Reload) else line


def source_of(lines: Iterable[Line]) -> bytes:
    """The bytes of a source."""
    return "".join(line_text(line) + "\n" for line in lines).encode("utf-8", "surrogateescape")


def texts_of(lines: Iterable[Line]) -> dict[str, Optional[Config]]:
    """What each text that the lines bring is."""
    return {line.text(): line.config() for line in lines if isinstance(line, Reload)}
