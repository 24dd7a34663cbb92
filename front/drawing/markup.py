"""Markup: elements with their attributes, and text that is escaped."""

import re
from typing import NamedTuple

# What may not stand in XML.
UNSPEAKABLE = re.compile("[^\t\n\r\u0020-\ud7ff\ue000-\ufffd\U00010000-\U0010ffff]")
ENTITIES = {"&": "&amp;", "<": "&lt;", ">": "&gt;", '"': "&quot;", "'": "&#39;"}


class Drawn(NamedTuple):
    """A part of a picture, with its size."""
    markup: str
    width: float
    height: float


def escaped(text):
    return re.sub("[&<>\"']", lambda found: ENTITIES[found[0]], UNSPEAKABLE.sub("?", str(text)))


def number(value):
    """A number of pixels, to a tenth and as short as it can be told."""
    told = f"{value:.1f}"
    return told[:-2] if told.endswith(".0") else told


def opening(name, attributes):
    parts = [name]
    for key, value in attributes.items():
        if value is not None and value != "":
            shown = number(value) if isinstance(value, (int, float)) else escaped(value)
            parts.append(f'{key.rstrip("_").replace("_", "-")}="{shown}"')
    return " ".join(parts)


def element(name, *content, **attributes):
    """An element with these parts, which are markup. An attribute's `_` stands for `-`, and one at its end for nothing."""
    return f"<{opening(name, attributes)}>{''.join(content)}</{name}>" if content else f"<{opening(name, attributes)}/>"


def text_element(name, text, **attributes):
    """The same of a text."""
    return element(name, escaped(text), **attributes)
