"""The page's file: its HTML with the styles, the library, the program and the data inside."""
import os
from html import escape
from pathlib import Path

from ..errors import ScenarioError

ASSETS = Path(__file__).parent / "assets"
# in the order in which later files use what earlier ones define
SCRIPTS = ("codes", "decode", "spans", "losses", "network", "recovery", "trace", "history", "states", "tables", "moments",
           "reasons", "model", "elements", "geometry", "surface", "vector_context", "theme", "layout", "marks", "labels",
           "player", "address", "selection", "filters", "rules", "story", "refs", "lanes", "why_member", "why_loss",
           "why", "sprites", "small_members", "network_packets", "network_view", "sequence_scope", "sequence_packets",
           "sequence_view", "slider", "grid", "table_panel", "controls", "legends", "picture", "tips", "facts",
           "keys", "app")
D3 = ("/usr/share/nodejs/d3/dist/d3.min.js",)


def library() -> str:
    """The text of d3, of the file in the environment's D3_JS or of Debian's package node-d3."""
    for path in (os.environ.get("D3_JS"), *D3):
        if path and Path(path).is_file():
            return Path(path).read_text(encoding="utf-8")
    raise ScenarioError("the page needs d3: install Debian's package node-d3, or name a d3.min.js of version 5 in "
                        "D3_JS")


def script() -> str:
    """The page's own program, in a scope of its own."""
    parts = [(ASSETS / "js" / f"{name}.js").read_text(encoding="utf-8") for name in SCRIPTS]
    return "(() => {\n\"use strict\";\n" + "\n".join(parts) + "\n})();\n"


def page(title: str, payload: str) -> str:
    """The page of a run."""
    licence = (ASSETS / "d3-licence.txt").read_text(encoding="utf-8")
    parts = {
        "title": escape(title),
        "styles": (ASSETS / "page.css").read_text(encoding="utf-8"),
        "library": f"/*\n{licence}*/\n{in_script(library())}",
        "data": payload,
        "script": in_script(script()),
    }
    return filled((ASSETS / "page.html").read_text(encoding="utf-8"), parts)


def filled(text: str, parts: dict[str, str]) -> str:
    """A text with each `{{name}}` replaced, once, by the part of that name."""
    front, *rest = text.split("{{")
    return front + "".join(parts[name] + after for name, after in (piece.split("}}", 1) for piece in rest))


def in_script(text: str) -> str:
    """A text that may stand in a script element."""
    if "</script" in text.lower():
        raise ScenarioError("a script holds the end of a script element")
    return text
