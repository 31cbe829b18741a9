#!/usr/bin/env python3
"""Holds the version that the program tells to the other places that name it, and to the tags of the repository.

usage: tests/sources/versions.py

The program's version stands in crates/srm_command_line/src/command_line.rt. CITATION.cff and the Python package have the same
one, and CHANGELOG.md either names it as the one to come, which is later than each release, or has it as its newest release. A
tag such as v1.2.0, of the commit that is checked out or of one before it, is of a release that CHANGELOG.md has, and of a
commit whose CITATION.cff, if it has one, names that version; a tag of the commit that is checked out is of the program's
version. Where there is a tag of a version, each release has one. Ends with status 1 where one of them differs.
"""
import pathlib
import re
import subprocess
import sys
from collections.abc import Iterator

TOP = pathlib.Path(__file__).resolve().parent.parent.parent
PROGRAM = "crates/srm_command_line/src/command_line.rt"
CITATION = "CITATION.cff"
CHANGELOG = "CHANGELOG.md"
TO_COME = r"^To be (\d\S*)\.$"
RELEASE = r"^## \[(\d[^\]]*)\]"
PLACES = {
    PROGRAM: r'const VERSION: &str = "([^"]+)";',
    CITATION: r"^version: (\S+)$",
    "python/pyproject.toml": r'^version = "([^"]+)"$',
    "python/src/srm_lab/__init__.py": r'^__version__ = "([^"]+)"$',
    CHANGELOG: f"{TO_COME}|{RELEASE}",
}
TAG = re.compile(r"v(\d+\.\d+\.\d+)")


def first(pattern: str, text: str) -> str | None:
    """The first version that a pattern finds in a text, or None."""
    found = re.search(pattern, text, re.M)
    return next((it for it in found.groups() if it), None) if found else None


def named(path: str) -> str | None:
    """The version that one of the places names, or None."""
    return first(PLACES[path], (TOP / path).read_text(encoding="utf-8"))


def order(version: str) -> tuple[int, ...]:
    """By what versions are told apart as earlier and later."""
    return tuple(int(it) for it in re.findall(r"\d+", version))


def git(*words: str) -> str:
    """What git tells of the repository; nothing where there is none."""
    return subprocess.run(["git", *words], cwd=TOP, capture_output=True, text=True, check=False).stdout


def tags(*which: str) -> list[str]:
    """The versions that have a tag, of the commits that git's words say."""
    return [found[1] for found in map(TAG.fullmatch, git("tag", *which).split()) if found]


def faults_of_places(version: str | None) -> Iterator[str]:
    """What of the places does not agree with the program's version."""
    for path in PLACES:
        other = named(path)
        if other is None:
            yield f"{path} names no version"
        elif other != version:
            yield f"{path} names version {other}, and the program is {version}"


def faults_of_releases(changelog: str) -> Iterator[str]:
    """What is wrong with the order of the versions in CHANGELOG.md, of which the latest stands first."""
    listed = re.findall(TO_COME, changelog, re.M) + re.findall(RELEASE, changelog, re.M)
    for later, earlier in zip(listed, listed[1:]):
        if order(later) <= order(earlier):
            yield f"{CHANGELOG} has {later} above {earlier}, and it is not later"


def faults_of_tags(version: str | None, releases: list[str]) -> Iterator[str]:
    """What is wrong with the tags of the commit that is checked out and of those before it."""
    tagged = tags("--merged", "HEAD")
    for tag in tagged:
        if tag not in releases:
            yield f"there is a tag v{tag}, and {CHANGELOG} has no such release"
        at_tag = first(PLACES[CITATION], git("show", f"v{tag}:{CITATION}"))
        if at_tag not in (None, tag):
            yield f"at the tag v{tag}, {CITATION} names version {at_tag}"
    for release in releases if tagged else []:
        if release not in tagged:
            yield f"{CHANGELOG} has the release {release}, and there is no tag v{release}"
    for tag in tags("--points-at", "HEAD"):
        if tag != version:
            yield f"this commit has the tag v{tag}, and the program is {version}"


def faults() -> Iterator[str]:
    """What does not agree with the program's version."""
    version, changelog = named(PROGRAM), (TOP / CHANGELOG).read_text(encoding="utf-8")
    yield from faults_of_places(version)
    yield from faults_of_releases(changelog)
    yield from faults_of_tags(version, re.findall(RELEASE, changelog, re.M))


def main() -> None:
    found = list(faults())
    for it in found:
        print(it, file=sys.stderr)
    sys.exit(bool(found))


if __name__ == "__main__":
    main()
