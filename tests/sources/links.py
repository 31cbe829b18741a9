#!/usr/bin/env python3
"""Follows each link of the documents to a file, or to a heading of a page, of this repository.

usage: tests/sources/links.py

Reads every Markdown page that git knows. A link within the repository has to lead to a file or a folder that is there, and
what follows a `#` to a heading of that page, by the name that GitHub gives it. Links to other hosts are not followed. Ends
with status 1 where a link leads nowhere.
"""
import functools
import pathlib
import re
import subprocess
import sys
import urllib.parse

TOP = pathlib.Path(__file__).resolve().parent.parent.parent
CODE = re.compile(r"^```.*?^```|`[^`\n]*`", re.S | re.M)
LINK = re.compile(r"!?\[(?:[^\[\]]|\[[^\[\]]*\])*\]\(([^()\s]+)\)")
HEADING = re.compile(r"^#{1,6} +(.+?) *#*$", re.M)


def pages() -> list[pathlib.Path]:
    """Every Markdown page that git knows."""
    told = subprocess.run(["git", "ls-files", "-z", "--cached", "--others", "--exclude-standard", "*.md"], cwd=TOP,
                          capture_output=True, check=True)
    return [TOP / name for name in told.stdout.decode().split("\0") if name]


def anchor(heading: str) -> str:
    """The name that GitHub gives a heading: its words in small letters, joined by hyphens."""
    text = re.sub(r"\[([^\]]*)\]\([^)]*\)", r"\1", heading)
    return re.sub(r"[^\w\- ]", "", text).strip().lower().replace(" ", "-")


@functools.cache
def anchors(page: pathlib.Path) -> set[str]:
    """The names of a page's headings; one that stands again is numbered."""
    found: dict[str, int] = {}
    for heading in HEADING.findall(re.sub(r"^```.*?^```", "", page.read_text(encoding="utf-8"), flags=re.S | re.M)):
        name = anchor(heading)
        found[name] = found.get(name, -1) + 1
        if found[name]:
            found[f"{name}-{found[name]}"] = 0
    return set(found)


def fault(page: pathlib.Path, link: str) -> str | None:
    """What is wrong with a link of a page, or None."""
    target = urllib.parse.urlsplit(link)
    if target.scheme or target.netloc:
        return None
    path = (page.parent / urllib.parse.unquote(target.path)).resolve() if target.path else page
    if not path.is_relative_to(TOP) or not path.exists():
        return "there is no such file"
    if target.fragment and path.suffix == ".md" and target.fragment not in anchors(path):
        return "the page has no such heading"
    return None


def main() -> None:
    faults = [(page.relative_to(TOP), link, wrong)
              for page in pages() for link in LINK.findall(CODE.sub("", page.read_text(encoding="utf-8")))
              for wrong in [fault(page, link)] if wrong]
    for page, link, wrong in faults:
        print(f"{page}: {link}: {wrong}", file=sys.stderr)
    sys.exit(bool(faults))


if __name__ == "__main__":
    main()
