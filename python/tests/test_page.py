"""Pages as data: what of a run stands in them, what a cut leaves out, and what the command refuses."""
import base64
import json
import re
import zlib
from pathlib import Path

import pytest

from srm_lab.errors import ScenarioError
from srm_lab.history import History
from srm_lab.page.columns import packed, steps
from srm_lab.page.command import main
from srm_lab.page.cut import Cut
from srm_lab.page.document import Document
from srm_lab.page.html import ASSETS, filled, in_script
from srm_lab.page.words import Words
from srm_lab.reading import read_scenario
from srm_lab.tables import read_trace

ROOT = Path(__file__).resolve().parents[2]
EXAMPLES = ROOT / "examples"
STYLES = (ASSETS / "page.css").read_text()
LATE = """version = 1
until = 100
c1 = 1000
c2 = 0
d1 = 1000
d2 = 0
topology = "chain"
size = 2
delay = 1
member = [{ node = 0, role = "sender", stream = 1 }, { node = 1, role = "late", stream = 2, pages = [] }]
draw = [{ member = 0, page = 0, ink = 1, at = 0 }]
"""
LATE_TRACE = """time,member,cause,ref,result,lost,sent
0,0,join,-,in,0,-
0,0,draw,0/0/0,sent,0,0:0
0,0,draw,0/0/1,sent,0,0:1
0,0,draw,0/0/2,sent,0,0:2
0,0,draw,0/0/3,sent,0,0:3
1,0,ask,0/0/1,sent,0,0:4
2,1,join,-,in,0,-
3,1,request,0:4,skip,0,-
4,1,data,0:3,fresh,1,-
"""


def document(name, seed=0, **cut):
    given = read_scenario((EXAMPLES / f"{name}.toml").read_text())
    with open(EXAMPLES / f"{name}.trace.csv", newline="") as lines:
        return Document(given, read_trace(lines), seed, Cut(**cut))


def head_of(page):
    """The JSON at the head of a page's data."""
    data = re.search(r'id="data">([^<]*)<', page)
    assert data is not None
    body = zlib.decompress(base64.b64decode(data.group(1)))
    length, at, factor = 0, 0, 1
    while True:
        length += (body[at] & 127) * factor
        factor *= 128
        at += 1
        if body[at - 1] < 128:
            return json.loads(body[at:at + length])


def test_words_are_those_of_the_generator_of_the_reference_implementation():
    """The demonstration of the PCG library's C code seeds this generator with 42 and 54."""
    words = Words(42, 54)
    assert [words.next() for _ in range(6)] == [
        0xa15c02b7, 0x7b47f409, 0xba1d3330, 0x83d2f293, 0xbfa4784b, 0xcbed606e]


def test_numbers_are_packed_in_base_128():
    assert packed([0, 127, 128, 300]) == bytes([0, 127, 128, 1, 172, 2])
    assert list(steps([3, 3, 1])) == [6, 0, 3]


def test_lengths_of_timers_where_the_seed_is_that_of_the_run():
    assert document("chain-of-five-one-loss").lengths is not None
    assert document("drawn-timers").lengths is not None
    assert document("drawn-timers", seed=42).lengths is None


def test_a_late_member_meets_a_page_at_a_request_that_it_skips():
    rows = list(read_trace(LATE_TRACE.splitlines()))
    history = History(read_scenario(LATE), rows)
    assert [(loss.member, tuple(loss.name), loss.detected) for loss in history.losses] == [(1, (0, 0, 2), 4)]


def test_an_end_leaves_out_later_rows():
    part = document("chain-of-five-one-loss", end=12).part
    assert [event.row.time for event in part.events][-1] == 12 and not part.too_many


def test_names_leave_joins_and_rows_about_them():
    part = document("outage-in-mid-session", names=frozenset({(0, 0, 1)})).part
    rows = {(event.row.time, event.row.cause) for event in part.events}
    assert (0, "join") in rows and (20, "draw") in rows and (0, "draw") not in rows
    assert (70, "data") in rows, "the row that shows the loss stays"


def test_a_begin_leaves_out_what_is_settled():
    """Operation 0 is heard by all at 10, and no later row is about it; operation 1 is lacked up to 115."""
    part = document("outage-in-mid-session", begin=75).part
    names = {event.name for event in part.events}
    assert (0, 0, 0) not in names and (0, 0, 1) in names


def test_more_rows_than_a_page_may_have(capsys):
    assert main([str(EXAMPLES / "two-nodes.toml"), str(EXAMPLES / "two-nodes.trace.csv"), "--rows", "3"]) == 0
    cut = head_of(capsys.readouterr().out)["cut"]
    assert (cut["rows"], cut["shown"], cut["tooMany"]) == (6, 3, True)


def test_the_page_stands_alone(capsys):
    assert main([str(EXAMPLES / "two-nodes.toml"), str(EXAMPLES / "two-nodes.trace.csv")]) == 0
    page = capsys.readouterr().out
    assert "Redistribution and use in source and binary forms" in page
    assert not re.search(r"""(?:src|href)=["'](?!data:)""", page.split("<script>")[0])


@pytest.mark.parametrize("words, told", [
    (["nowhere.toml"], "nowhere.toml"),
    ([str(EXAMPLES / "two-nodes.toml"), str(EXAMPLES / "two-nodes.toml")], "is no trace"),
    ([str(EXAMPLES / "two-nodes.toml"), str(EXAMPLES / "two-nodes.trace.csv"), "--name", "x"], "source/page/number"),
    ([str(EXAMPLES / "two-nodes.toml"), str(EXAMPLES / "two-nodes.trace.csv"), "--from", "9", "--to", "3"], "before"),
    ([str(EXAMPLES / "two-nodes.toml"), "--program", "/nowhere/srm_lab"], "no program"),
])
def test_refusals(words, told, capsys):
    assert main(words) == 1
    out, error = capsys.readouterr()
    assert not out and told in error and error.count("\n") == 1


def test_parts_of_the_page_are_filled_in_once():
    assert filled("<{{a}}{{b}}>", {"a": "{{b}}", "b": "x"}) == "<{{b}}x>"
    with pytest.raises(ScenarioError):
        in_script("</script>")


def luminance(colour):
    """Relative luminance, as the Web Content Accessibility Guidelines (WCAG 2) define it."""
    parts = (int(colour[at:at + 2], 16) / 255 for at in (1, 3, 5))
    linear = [part / 12.92 if part <= 0.04045 else ((part + 0.055) / 1.055) ** 2.4 for part in parts]
    return sum(weight * part for weight, part in zip((0.2126, 0.7152, 0.0722), linear))


def contrast(one, other):
    dark, light = sorted(map(luminance, (one, other)))
    return (light + 0.05) / (dark + 0.05)


@pytest.mark.parametrize("block", [":root {", ':root[data-theme="dark"] {'])
def test_contrast_of_texts_and_marks(block):
    """WCAG 2, level AA: 4.5 for texts, 3 for what a picture is understood by and for the edges of fields."""
    of = dict(re.findall(r"--(\w+): (#[0-9a-f]{6})", STYLES.split(block)[1].split("}")[0]))
    for text in ("ink", "soft", "accent", "cross"):
        assert min(contrast(of[text], of["paper"]), contrast(of[text], of["panel"])) >= 4.5, text
    assert contrast(of["onaccent"], of["accent"]) >= 4.5
    for mark in ("data", "request", "repair", "session", "lost", "plans", "lacks", "node", "edge"):
        assert contrast(of[mark], of["paper"]) >= 3, mark
    for mark in ("repair", "plans", "lacks", "edge"):
        assert contrast(of[mark], of["select"]) >= 3, f"{mark} on a halo"
