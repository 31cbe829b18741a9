"""Pages in Chromium: they open without errors and without the network, play, and show what the program's tables say."""
import base64
import csv
import gzip
import io
import json
import math
import random
import shutil
import subprocess
import time
from pathlib import Path
from xml.etree import ElementTree

import pytest
from matplotlib import pyplot

from srm_lab import scenario as scenarios
from srm_lab.loss_words import loss_word
from srm_lab.page.command import main
from srm_lab.page.html import ASSETS, library

ROOT = Path(__file__).resolve().parents[2]
EXAMPLES = ROOT / "examples"
NAMES = sorted(path.stem for path in EXAMPLES.glob("*.toml"))
TICKS = 10
webdriver = pytest.importorskip("selenium.webdriver")


@pytest.fixture(scope="module")
def browser():
    """Headless Chromium; without it the test is skipped."""
    chromium, driver = shutil.which("chromium"), shutil.which("chromedriver")
    if not chromium or not driver:
        pytest.skip("no chromium or no chromedriver")
    options = webdriver.ChromeOptions()
    options.binary_location = chromium
    for word in ("--headless=new", "--no-sandbox", "--disable-gpu", "--disable-dev-shm-usage",
                 "--window-size=1440,900", "--force-prefers-color-scheme=light"):
        options.add_argument(word)
    options.set_capability("goog:loggingPrefs", {"browser": "ALL", "performance": "ALL"})
    from selenium.webdriver.chrome.service import Service
    one = webdriver.Chrome(service=Service(driver), options=options)
    yield one
    one.quit()


@pytest.fixture
def make_page(tmp_path, capsys, program):
    """Writes the page of a scenario's file, and returns its path."""
    def make(scenario, *words):
        assert main([str(scenario), *words, "--program", str(program)]) == 0
        path = tmp_path / "run.html"
        path.write_text(capsys.readouterr().out, encoding="utf-8")
        return path

    return make


def show(browser, path, moment=""):
    """Opens a page at a moment, and waits until it is there."""
    browser.get("about:blank")
    browser.get_log("performance")
    browser.get_log("browser")
    browser.get(f"{path.as_uri()}#{moment}")
    wait_for(browser, "return document.body && document.body.dataset.ready === 'yes'")


def wait_for(browser, question, seconds=20):
    """Waits for seconds at most until the page answers yes."""
    until = time.monotonic() + seconds
    while not browser.execute_script(question):
        assert time.monotonic() < until, question
        time.sleep(0.02)


def errors(browser):
    return [entry["message"] for entry in browser.get_log("browser") if entry["level"] in ("SEVERE", "WARNING")]


def requests(browser):
    """What the page asked for beside itself."""
    events = [json.loads(entry["message"])["message"] for entry in browser.get_log("performance")]
    asked = [it["params"]["request"]["url"] for it in events if it["method"] == "Network.requestWillBeSent"]
    return [url for url in asked if not url.startswith(("file:", "data:", "blob:", "about:"))]


def press(browser, key):
    from selenium.webdriver.common.action_chains import ActionChains
    ActionChains(browser).send_keys(key).perform()


def moment(browser):
    return browser.execute_script("const p = srmPage.player; return [p.tick, p.rows];")


@pytest.mark.parametrize("name", NAMES)
def test_opens_plays_and_has_the_programs_tables(browser, make_page, srm_lab, name):
    scenario = EXAMPLES / f"{name}.toml"
    show(browser, make_page(scenario))
    for table in ("trace", "members", "losses", "links"):
        must = srm_lab(scenario.read_text(), "--show", table)
        assert browser.execute_script(f"return srmPage.model.csv('{table}')") == must, table
    browser.execute_script("srmPage.player.setSpeed(1e9); srmPage.player.play()")
    wait_for(browser, "return !srmPage.player.isPlaying && srmPage.player.rows === srmPage.model.trace.length")
    browser.execute_script("srmPage.showView('sequence')")
    assert errors(browser) == [] and requests(browser) == []


def test_a_network_that_only_version_3_has_room_for(browser, make_page, srm_lab, tmp_path):
    made = scenarios.random_tree(5000, members=50, seed=4).drawing(3).lose(every=3, link="adjacent", seed=1)
    path = made.write(tmp_path / "large.toml")
    show(browser, make_page(path))
    for table in ("trace", "losses", "links"):
        assert browser.execute_script(f"return srmPage.model.csv('{table}')") == srm_lab(path.read_text(), "--show", table)
    browser.execute_script("srmPage.showView('sequence'); document.getElementById('about').click()")
    text = browser.execute_script("return document.body.textContent")
    assert "A tree of listed parents with 5,000 nodes and 50 members" in text
    assert errors(browser) == [] and requests(browser) == []


def test_losses_at_random_are_those_of_the_seed(browser, make_page, srm_lab, tmp_path):
    seed, stream, counts = 2**63 - 1, 2**63 - 2, [0, 7, 2**40]
    made = scenarios.chain(4, delay=10).drawing(30, every=50).lose(rate=0.1, stream=stream).lose(rate=0.2, link=1, first=500)
    path = made.write(tmp_path / "lossy.toml")
    show(browser, make_page(path, "--seed", str(seed)))
    words = browser.execute_script("return srmPage.model.network.losses.of(1).map("
                                   f"(loss) => {counts}.map((count) => loss.word({{ sender: 3, count }})))")
    assert words == [[loss_word(seed, one, 1, 3, count) for count in counts] for one in (stream, 0)]
    for table in ("losses", "links"):
        must = srm_lab(path.read_text(), "--show", table, "--seed", str(seed))
        assert browser.execute_script(f"return srmPage.model.csv('{table}')") == must
    browser.execute_script("srmPage.pick({ kind: 'link', link: 1 })")
    assert "loses at random10 %, 20 %, from 500" in browser.execute_script("return document.body.textContent")
    assert errors(browser) == []


def shown_cells(browser, table):
    browser.execute_script(f"srmPage.showTable('{table}')")
    return shown_cells_now(browser)


def shown_cells_now(browser):
    return browser.execute_script("return Array.from(document.querySelectorAll('#grid .body .line'), "
                                  "(line) => Array.from(line.children, (cell) => cell.textContent))")


def test_lines_of_the_tables_are_the_programs(browser, make_page, srm_lab):
    scenario = EXAMPLES / "outage-in-mid-session.toml"
    show(browser, make_page(scenario))
    for table in ("members", "losses", "links"):
        rows = list(csv.reader(io.StringIO(srm_lab(scenario.read_text(), "--show", table))))
        assert shown_cells(browser, table) == rows[1:]


def expected(trace, losses, tick):
    """Of each member, by the program's tables: whether it is there and whether it left, how many operations it holds,
    those that it lacks, those that it asked for or heard a request for, and those that it plans to repair."""
    rows = [row for row in csv.DictReader(io.StringIO(trace)) if int(row["time"]) <= tick]
    names = {row["sent"]: row["ref"] for row in rows if row["sent"] != "-"}
    found: dict[int, dict] = {}
    for row in rows:
        nothing = {"there": False, "left": False, "held": 0, "asked": set(), "plans": set()}
        member = found.setdefault(int(row["member"]), nothing)
        event, name = (row["cause"], row["result"]), names.get(row["ref"], row["ref"])
        member["there"] |= row["cause"] == "join"
        member["held"] += row["result"] in ("fresh", "fixed") or event == ("draw", "sent")
        if event in (("ask", "sent"), ("request", "back"), ("request", "hold")):
            member["asked"].add(name)
        if event == ("request", "plan"):
            member["plans"].add(name)
        elif row["cause"] in ("answer", "repair") and row["result"] != "skip":
            member["plans"].discard(name)
        if row["cause"] == "leave":
            member.update(left=True, plans=set())
    for member in found.values():
        member["lacked"] = set()
    for loss in csv.DictReader(io.StringIO(losses)):
        is_open = loss["recovered"] == "-" or int(loss["recovered"]) > tick
        if int(loss["detected"]) <= tick and is_open and not found[int(loss["member"])]["left"]:
            found[int(loss["member"])]["lacked"].add(f"{loss['source']}/{loss['page']}/{loss['number']}")
    return found


@pytest.mark.parametrize("name", ["chain-of-five-one-loss", "outage-in-mid-session", "receiver-that-leaves",
                                  "late-joiner", "star-loss-at-one-member"])
def test_states_at_ten_ticks_are_those_of_the_trace(browser, make_page, srm_lab, name):
    scenario = EXAMPLES / f"{name}.toml"
    trace, losses = srm_lab(scenario.read_text()), srm_lab(scenario.read_text(), "--show", "losses")
    last = int(trace.splitlines()[-1].split(",")[0])
    show(browser, make_page(scenario))
    for tick in (last * part // (TICKS - 1) for part in (9, 0, 5, 2, 8, 1, 7, 3, 6, 4)):
        browser.execute_script(f"srmPage.player.seek({tick})")
        shown = browser.execute_script("""
            const { states } = srmPage.model;
            const words = ["absent", "holds", "plans", "rests", "lacks", "asked", "left"];
            return Array.from({ length: states.members },
                (_, member) => [words[states.of(member)], states.count(0, member), states.count(1, member)]);""")
        for member, (state, held, lacked) in enumerate(shown):
            must = expected(trace, losses, tick).get(member)
            assert (state == "absent") == (must is None or not must["there"]), (tick, member)
            if must is None:
                continue
            assert (state == "left") == must["left"] and held == must["held"], (tick, member)
            assert lacked == len(must["lacked"]) and (state in ("lacks", "asked")) == (lacked > 0), (tick, member)
            assert (state == "asked") == (lacked > 0 and must["lacked"] <= must["asked"]), (tick, member)
            assert (state == "plans") == (lacked == 0 and len(must["plans"]) > 0), (tick, member)


def test_a_link_to_a_moment(browser, make_page):
    path = make_page(EXAMPLES / "chain-of-five-one-loss.toml")
    show(browser, path, "tick=15&view=sequence&table=losses&hide=session&name=0/0/0&select=loss:0/0/0:3&theme=dark")
    assert moment(browser) == [15, 15]
    said = browser.execute_script("""return [srmPage.view, srmPage.table, srmPage.selection.member,
        document.documentElement.dataset.theme, document.querySelector('#why h2').textContent];""")
    assert said == ["sequence", "losses", 3, "dark", "Operation 0/0/0"]
    press(browser, "\ue014")
    wait_for(browser, "return location.hash.includes('tick=16') && location.hash.includes('rows=16')")
    kept = browser.execute_script("return location.hash").lstrip("#")
    show(browser, path, kept)
    assert moment(browser) == [16, 16]
    assert errors(browser) == []


def test_keys(browser, make_page):
    left, right, home, end, shift = "\ue012", "\ue014", "\ue011", "\ue010", "\ue008"
    show(browser, make_page(EXAMPLES / "chain-of-five-one-loss.toml"))
    press(browser, home)
    begin = moment(browser)
    press(browser, right)
    assert moment(browser)[1] == begin[1] + 1
    press(browser, left)
    assert moment(browser)[1] == begin[1]
    press(browser, end)
    assert moment(browser) == [19, 22]
    press(browser, home)
    press(browser, "n")
    assert moment(browser)[0] == 12
    press(browser, shift + right)
    assert moment(browser)[0] == 13
    press(browser, "2")
    assert browser.execute_script("return srmPage.view") == "sequence"
    speed = browser.execute_script("return srmPage.player.speed")
    press(browser, "+")
    assert browser.execute_script("return srmPage.player.speed") > speed
    press(browser, " ")
    assert browser.execute_script("return srmPage.player.isPlaying")
    press(browser, " ")
    assert not browser.execute_script("return srmPage.player.isPlaying")
    press(browser, "s")
    assert not browser.execute_script("return srmPage.player.skips")
    press(browser, "?")
    assert browser.execute_script("return document.querySelector('dialog').open")
    assert errors(browser) == []


def click(browser, selector):
    browser.execute_script("document.querySelector(arguments[0]).click()", selector)


def test_a_click_sorts_a_table_and_selects_in_the_picture(browser, make_page):
    show(browser, make_page(EXAMPLES / "outage-in-mid-session.toml"), "table=members")
    heard = "#grid [role=columnheader]:nth-child(7)"
    click(browser, f"{heard} button")
    assert [line[6] for line in shown_cells_now(browser)] == ["4", "4", "6"]
    click(browser, f"{heard} button")
    assert [line[6] for line in shown_cells_now(browser)] == ["6", "4", "4"]
    assert browser.execute_script(f"return document.querySelector('{heard}').ariaSort") == "descending"
    click(browser, "#grid .body .line")
    assert browser.execute_script("return srmPage.views.network.picked") == [1]
    browser.execute_script("srmPage.showTable('losses')")
    click(browser, "#grid .body .line:last-child")
    assert browser.execute_script("return srmPage.views.network.picked") == [2]
    assert browser.execute_script("return document.querySelector('#why h2').textContent") == "Operation 0/0/2"
    assert errors(browser) == []


def test_the_story_of_a_loss(browser, make_page):
    """What docs/TUTORIAL.md tells of such a chain, with the numbers of the tables of examples/."""
    show(browser, make_page(EXAMPLES / "chain-of-five-one-loss.toml"), "select=loss:0/0/0")
    story = browser.execute_script("return document.querySelector('#why .rule').textContent")
    assert "Members 2, 3 and 4 lost it, and found out at ticks 12 to 14." in story
    assert "Member 2 asked first, at tick 14, which suppressed the request of members 3 and 4." in story
    assert "All of them had it by tick 19, 0.625 to 1.25 round trips to the source after finding out." in story


def chosen_rule(browser, row):
    """What the page says of the row of a trace that begins so."""
    browser.execute_script("""
        const { trace } = srmPage.model;
        const row = Array.from(trace.time, (_, at) => trace.fields(at).join(",")).findIndex((it) => it.startsWith(arguments[0]));
        srmPage.pick({ kind: "row", row });""", row)
    return browser.execute_script("return document.querySelector('#why .rule').textContent")


def local_session(given):
    """A session without chance in its timers, the first of whose two operations is lost."""
    return given.constants(c1=1, c2=0, d1=1, d2=0).drawing(0).draw(0).draw(10).ends(1000)


def test_a_recovery_in_two_steps(browser, make_page, srm_lab, tmp_path):
    """The link above member 1 loses, and 4 and 5 are below it: its request and both repairs go one link far."""
    made = local_session(scenarios.regular_tree(8, degree=3, delay=2)).constants(c1=2).drop(0, 0)
    path = made.local_recovery(scope={1: 1, 4: 2, 5: 2}).write(tmp_path / "subtree.toml")
    show(browser, make_page(path), "select=loss:0/0/0")
    for table in ("trace", "members", "losses", "links"):
        assert browser.execute_script(f"return srmPage.model.csv('{table}')") == srm_lab(path.read_text(), "--show", table)
    story = browser.execute_script("return document.querySelector('#why .rule').textContent")
    for told in ("Member 1 asked first, at tick 16, 1 link far, which suppressed the request of members 4 and 5.",
                 "Member 0 answered first, at tick 20, 1 link far.",
                 "In a second step member 1 sent it on, at tick 23, 1 link far.",
                 "3 of 8 members heard a request, and 6 a repair."):
        assert told in story
    tables = browser.execute_script("return Array.from(document.querySelectorAll('#why table'), (it) => it.innerText)")
    assert "second step" in tables[2] and "first step\t1\t3 members" in tables[3] and "second step\t1\t3 members" in tables[3]
    assert "as far as the request of member 1, which went 1 link far; that one sends it on" in chosen_rule(browser, "20,0,answer")
    assert "a tick later it sends it on, as far as the request went" in chosen_rule(browser, "22,1,repair")
    assert "it sends on 0/0/0, which it asked for, 1 link far" in chosen_rule(browser, "23,1,answer")
    assert errors(browser) == []


def test_a_packet_stops_where_its_scope_ends(browser, make_page, srm_lab, tmp_path):
    """It is lost nowhere there: no link counts it, and a bar stands where it stops, and no cross."""
    made = local_session(scenarios.regular_tree(8, degree=3, delay=2)).constants(c1=2).drop(0, 0).outage(1, 15, 99)
    path = made.local_recovery(scope={1: 1, 4: 2, 5: 2}).write(tmp_path / "subtree.toml")
    show(browser, make_page(path), "tick=18.5")
    ended = browser.execute_script("""
        const { network, trace } = srmPage.model;
        const request = trace.packets.find((packet) => packet.kind === 1);
        const { dropped, ended, crossed } = network.fateOf(request);
        const links = (places) => places.map((at) => network.routeOf(1).link[at]);
        const places = Array.from(crossed, (_, at) => at);
        return [links(dropped), links(ended), links(places.filter((at) => crossed[at])).sort()];""")
    assert ended == [[], [1, 2], [0, 3, 4]]
    words = "return srmPage.views.network.labels.items.map(({ text }) => text)"
    assert "scope ends" in browser.execute_script(words) and "dropped" not in browser.execute_script(words)
    legend = browser.execute_script("return document.getElementById('legend').textContent")
    browser.execute_script("srmPage.showView('sequence'); document.getElementById('about').click()")
    assert "repairs answer them in two steps" in browser.execute_script("return document.querySelector('dialog').textContent")
    ends = browser.execute_script(
        "return srmPage.views.sequence.hits.filter((hit) => hit.isEnd).map(({ packet }) => packet.kind)")
    assert "scope ends" in legend and ends.count(1) == 2 and ends.count(2) >= 4
    show(browser, make_page(EXAMPLES / "two-nodes.toml"))
    assert "scope ends" not in browser.execute_script("return document.getElementById('legend').textContent")
    assert errors(browser) == []


def test_why_a_holder_answers_or_does_not(browser, make_page, tmp_path):
    """Members 2, 3 and 4 of a chain lose; 3 answers 4 although it rests. And one that is busy hears a wider request."""
    chain = local_session(scenarios.chain(5, delay=1)).drop(1, 0).local_recovery(scope=1)
    show(browser, make_page(chain.write(tmp_path / "chain.toml")))
    told = chosen_rule(browser, "19,3,request,4:0,plan")
    assert "does not count, since the repair that it comes from may not reach all who heard this request" in told
    assert "which goes 1 link far" in told
    assert "it asks those within 1 link" in chosen_rule(browser, "14,2,ask")
    nodes = scenarios.chain(3, members=1, source=1, delay=1).member(2).member(0)
    busy = local_session(nodes).drop(0, 0).drop(1, 0).local_recovery(scope=1).local_recovery(scope={2: 0})
    show(browser, make_page(busy.write(tmp_path / "busy.toml")), "select=loss:0/0/0")
    assert "1, then 2" in browser.execute_script("return document.getElementById('why').innerText")
    told = chosen_rule(browser, "13,0,request,2:0,busy")
    assert "This request goes further, to all: the timer now answers it, and is due as before." in told
    assert "set at 13 for member 1" in told and "goes unanswered." in chosen_rule(browser, "15,0,request,2:1,rest")
    assert errors(browser) == []


def test_losses_in_bursts_are_those_of_the_seed(browser, make_page, srm_lab, tmp_path):
    made = scenarios.chain(4, delay=10).drawing(30, every=50).lose(rate=0.2, burst=70, stream=3)
    made = made.lose(rate=0.4, link=1, burst=1, first=9)
    path = made.write(tmp_path / "bursts.toml")
    show(browser, make_page(path, "--seed", "5"))
    must = srm_lab(path.read_text(), "--show", "links", "--seed", "5")
    assert browser.execute_script("return srmPage.model.csv('links')") == must
    browser.execute_script("srmPage.pick({ kind: 'link', link: 1 })")
    told = "loses at random20 % in bursts of 70 ticks, 40 % in bursts of 1 tick, from 9"
    assert told in browser.execute_script("return document.body.textContent")
    assert errors(browser) == []


def span_of(losses, name, member, last):
    """The tick at which the loss of an operation, by all or by one member, is found, and the one at which it ends."""
    some = [it for it in csv.DictReader(io.StringIO(losses))
            if f"{it['source']}/{it['page']}/{it['number']}" == name and member in (None, it["member"])]
    ends = [last if it["recovered"] == "-" else int(it["recovered"]) for it in some]
    return min(int(it["detected"]) for it in some), max(ends)


def shown_span(browser):
    browser.execute_async_script("requestAnimationFrame(() => requestAnimationFrame(arguments[0]))")
    return browser.execute_script("const { sequence } = srmPage.views; return [sequence.from, sequence.to];")


def assert_shows(browser, begin, end):
    """The sequence shows these ticks, with a little room before and after them."""
    first, last = shown_span(browser)
    room = max(2, 0.25 * (end - begin))
    assert begin - room <= first < begin and end < last <= end + room


def test_the_sequence_opens_on_the_selected_loss(browser, make_page, srm_lab):
    scenario = EXAMPLES / "losses-on-two-pages.toml"
    losses = srm_lab(scenario.read_text(), "--show", "losses")
    path = make_page(scenario)
    show(browser, path)
    begin, end = browser.execute_script("return srmPage.views.sequence.base.domain()")
    rows = list(csv.DictReader(io.StringIO(losses)))
    names = sorted({f"{it['source']}/{it['page']}/{it['number']}" for it in rows})
    member = rows[0]["member"]
    show(browser, path, f"view=sequence&select=loss:{names[0]}")
    assert_shows(browser, *span_of(losses, names[0], None, end))
    press(browser, "0")
    first, last = shown_span(browser)
    assert first <= begin and end <= last
    show(browser, path, f"select=loss:{names[0]}:{member}")
    press(browser, "2")
    assert_shows(browser, *span_of(losses, names[0], member, end))
    browser.execute_script("srmPage.showTable('losses')")
    click(browser, "#grid .body .line:last-child")
    other = f"{rows[-1]['source']}/{rows[-1]['page']}/{rows[-1]['number']}"
    assert_shows(browser, *span_of(losses, other, rows[-1]["member"], end))
    show(browser, path, "view=sequence")
    first, last = shown_span(browser)
    assert first <= begin and end <= last, "with nothing selected the whole run is shown"
    assert errors(browser) == []


def test_the_sequence_opens_on_a_loss_that_stays(browser, make_page, srm_lab, tmp_path):
    """The only link goes out when the loss is found, so that it lasts as long as the run."""
    made = scenarios.chain(2, delay=10).drawing(2, every=100).drop(0, 0).outage(0, 111, 1_000_000).ends(5000)
    scenario = made.write(tmp_path / "stays.toml")
    losses = srm_lab(scenario.read_text(), "--show", "losses")
    assert [it["recovered"] for it in csv.DictReader(io.StringIO(losses))] == ["-"]
    show(browser, make_page(scenario), "view=sequence&select=loss:0/0/0")
    begin, end = browser.execute_script("return srmPage.views.sequence.base.domain()")
    first, last = shown_span(browser)
    assert first <= int(losses.splitlines()[1].split(",")[4]) and last >= end > begin


def test_little_motion(browser, make_page):
    """Ticks with events one after the other, some few a second, and no packet between two nodes."""
    reduce = [{"name": "prefers-reduced-motion", "value": "reduce"}]
    browser.execute_cdp_cmd("Emulation.setEmulatedMedia", {"features": reduce})
    try:
        show(browser, make_page(EXAMPLES / "two-nodes.toml"))
        press(browser, " ")
        wait_for(browser, "return !srmPage.player.isPlaying || srmPage.player.tick > 0")
        assert browser.execute_script("return srmPage.player.tick") in (3, 5, 8)
    finally:
        browser.execute_cdp_cmd("Emulation.setEmulatedMedia", {"features": []})


@pytest.fixture
def sized(browser):
    """Gives the window another size, for one test."""
    def size(width, height, scale=1):
        browser.execute_cdp_cmd("Emulation.setDeviceMetricsOverride",
                                {"width": width, "height": height, "deviceScaleFactor": scale, "mobile": False})

    yield size
    browser.execute_cdp_cmd("Emulation.clearDeviceMetricsOverride", {})


def many_losers(kind):
    """A thousand members, hundreds of which lose the first operation; some join late, and some leave early."""
    if kind == "star":
        made = scenarios.star(1001, delay=10).constants(c2="sqrt", d2="sqrt").drawing(2, every=100)
        for link in random.Random(1).sample(range(1, 1000), 412):
            made = made.drop(link, 0)
    else:
        made = scenarios.regular_tree(1024, degree=3, delay=10) if kind == "tree" else scenarios.random_tree(1000, delay=10)
        made = made.drawing(2, every=100).lose(every=2, link="adjacent", seed=1)
    last = len(made.members)
    return made.join(list(range(last - 60, last - 40)), at=700).leave(list(range(last - 20, last)), at=150)


@pytest.mark.parametrize("kind, tick", [("star", 186), ("tree", 150), ("tree", 232), ("random", 300)])
def test_states_of_a_thousand_members_are_told_apart(browser, make_page, srm_lab, sized, tmp_path, kind, tick):
    """No mark lies on another, middles have their states' colours, and the legend counts each state."""
    scenario = many_losers(kind).write(tmp_path / "many.toml")
    path, text = make_page(scenario), scenario.read_text()
    members = expected(srm_lab(text), srm_lab(text, "--show", "losses"), tick).values()
    lacking = [it for it in members if it["lacked"]]
    must = {
        "has not joined": 20,
        "left": sum(it["left"] for it in members),
        "lacks, and waits to ask": sum(not it["lacked"] <= it["asked"] for it in lacking),
        "lacks, and asked or heard a request": sum(it["lacked"] <= it["asked"] for it in lacking),
        "plans a repair": sum(not it["lacked"] and len(it["plans"]) > 0 for it in members),
    }
    for size in ((1280, 800, 1), (390, 844, 2)):
        sized(*size)
        show(browser, path, f"tick={tick}&select=loss:0/0/0")
        legend = browser.execute_script("""return Array.from(document.querySelectorAll("#legend span"),
            (entry) => [entry.firstChild.nextSibling.textContent, entry.querySelector("b")?.textContent]);""")
        counts = {word: int(count.replace(",", "")) for word, count in legend if count is not None}
        assert {word: counts[word] for word in must} == must and sum(counts.values()) == len(many_losers(kind).members)
        nearest, widest, wrong = browser.execute_script("""
            const { model, theme, views: { network: view } } = srmPage;
            const places = model.network.memberNodes.map((node) => [view.x[node], view.y[node]]);
            let nearest = Infinity;
            places.forEach(([x, y], one) => places.slice(0, one).forEach(([left, top]) => {
              nearest = Math.min(nearest, Math.hypot(x - left, y - top));
            }));
            const colours = [theme.paper, null, theme.plans, theme.paper, theme.lacks, theme.asked, null];
            const { canvas, context, scale } = view.surface;
            const { data } = context.getImageData(0, 0, canvas.width, canvas.height);
            const wrong = places.flatMap(([x, y], member) => {
              const state = model.states.of(member);
              if (!colours[state]) return [];
              const at = 4 * (Math.floor(y * scale) * canvas.width + Math.floor(x * scale));
              const { r, g, b } = d3.rgb(colours[state]);
              return Math.hypot(data[at] - r, data[at + 1] - g, data[at + 2] - b) < 60 ? [] : [[member, state]];
            });
            return [nearest, 2 * view.smallMembers.sizeOf(4, "receiver"), wrong];""")
        assert wrong == [] and widest <= nearest
    assert errors(browser) == []


@pytest.mark.parametrize("kind", ["star", "tree", "random"])
def test_a_thousand_nodes_fill_their_pane(browser, make_page, sized, tmp_path, kind):
    path = make_page(many_losers(kind).write(tmp_path / "many.toml"))
    for size in ((1280, 800), (900, 700), (390, 844)):
        sized(*size)
        show(browser, path)
        x, y, width, height = browser.execute_script("""
            const { x, y, surface } = srmPage.views.network;
            return [d3.extent(x), d3.extent(y), surface.width, surface.height];""")
        for (low, high), room in ((x, width), (y, height)):
            assert 0 < low and high < room and high - low > 0.85 * room, (size, low, high, room)


@pytest.mark.parametrize("size", [(1440, 900), (900, 700), (800, 600), (390, 844), (844, 390)])
def test_no_control_lies_over_the_network(browser, make_page, sized, size):
    """Where the window is large enough for the head beside it, the whole network is seen at once; else after scrolling."""
    sized(*size)
    show(browser, make_page(EXAMPLES / "tree-of-1024-nodes.toml"))
    if min(size) < 560:
        browser.execute_script("document.getElementById('stage').scrollIntoView()")
    tall, covered = browser.execute_script("""
        const canvas = document.getElementById("network");
        const { left, top, width, height } = canvas.getBoundingClientRect();
        const parts = [0.01, 0.25, 0.5, 0.75, 0.99];
        const above = (part, down) => document.elementFromPoint(left + part * width, top + down * height);
        return [height, parts.flatMap((part) => parts.map((down) => above(part, down))).filter((it) => it !== canvas).length];""")
    assert covered == 0 and tall >= 100
    assert errors(browser) == []


# how the two kinds of red-green blindness see linear red, green and blue (Machado, Oliveira and Fernandes 2009)
SIGHTS = {"trichromat": ((1, 0, 0), (0, 1, 0), (0, 0, 1)),
          "protanope": ((0.152, 1.053, -0.205), (0.115, 0.786, 0.099), (-0.004, -0.048, 1.052)),
          "deuteranope": ((0.367, 0.861, -0.228), (0.280, 0.673, 0.047), (-0.012, 0.043, 0.969))}


def lab(colour, sight):
    """A colour of three numbers from 0 to 255, as it is seen, in CIELAB: there one step is just told apart."""
    linear = [it / 12.92 if it <= 0.04045 else ((it + 0.055) / 1.055) ** 2.4 for it in (part / 255 for part in colour)]
    red, green, blue = (min(1, max(0, sum(a * b for a, b in zip(row, linear)))) for row in SIGHTS[sight])
    x, y, z = (it ** (1 / 3) if it > 216 / 24389 else (24389 / 27 * it + 16) / 116 for it in (
        (0.4125 * red + 0.3576 * green + 0.1804 * blue) / 0.9505, 0.2127 * red + 0.7152 * green + 0.0722 * blue,
        (0.0193 * red + 0.1192 * green + 0.9503 * blue) / 1.0888))
    return 116 * y - 16, 500 * (x - y), 200 * (y - z)


@pytest.mark.parametrize("theme", ["light", "dark"])
@pytest.mark.parametrize("radius", [3, 12])
def test_repairs_and_members_that_plan_one_differ_in_colour_and_shape(browser, make_page, theme, radius):
    """Of a repair and of members that may plan one, as they are drawn: the middle's colour, and the pixels that are filled."""
    show(browser, make_page(EXAMPLES / "two-nodes.toml"), f"theme={theme}")
    marks = "\n".join((ASSETS / "js" / f"{name}.js").read_text() for name in ("codes", "states", "marks"))
    shown = browser.execute_script(marks + """
        const [theme, radius] = [srmPage.theme, arguments[0]];
        const drawn = (draw) => {
          const canvas = document.createElement("canvas");
          canvas.width = canvas.height = 81;
          const context = canvas.getContext("2d");
          draw(context, 40.5, 40.5);
          const { data } = context.getImageData(0, 0, 81, 81);
          const filled = Array.from({ length: 81 * 81 }, (_, at) => data[4 * at + 3] > 127);
          return [Array.from(data.slice(4 * (40 * 81 + 40), 4 * (40 * 81 + 40) + 3)), filled];
        };
        const member = (role) => (context, x, y) =>
          (radius < 5 ? drawSmallMember : drawMember)(context, theme, role, STATE.plans, x, y, radius);
        return [drawn((context, x, y) => fillPacket(context, theme, KIND.repair, x, y, radius)),
                ...["sender", "receiver", "late"].map((role) => drawn(member(role)))];""", radius)
    (repair, packet), *members = shown
    for colour, mark in members:
        for sight in SIGHTS:
            assert math.dist(lab(colour, sight), lab(repair, sight)) > 25, sight
        both, either = (sum(map(join, zip(packet, mark))) for join in (all, any))
        assert both < 0.75 * either


def last_tick(browser):
    return browser.execute_script("return srmPage.model.moments.end")


def widest(browser):
    """How wide the page is, also what one would have to scroll to."""
    return browser.execute_script("return Math.max(document.documentElement.scrollWidth, "
                                  "document.querySelector('.page').scrollWidth)")


@pytest.mark.parametrize("name", ["chain-of-five-one-loss", "star-loss-at-one-member", "outage-in-mid-session",
                                  "losses-on-two-pages", "parents-and-repetition"])
def test_on_a_phone_no_label_lies_on_a_node_or_another_label(browser, make_page, sized, name):
    path = make_page(EXAMPLES / f"{name}.toml")
    for width in (360, 390, 420):
        sized(width, 800)
        show(browser, path)
        last = last_tick(browser)
        for tick in {0, 1, *(last * part // 7 for part in range(8))}:
            labels, nodes, links = browser.execute_script(f"""
                srmPage.player.seek({tick});
                const {{ labels, x, y, radius, network }} = srmPage.views.network;
                return [labels.items.map(({{ text, box }}) => [text, ...box]),
                        network.memberNodes.map((node) => [x[node], y[node], radius]), network.links.length];""")
            assert [text for text, *_ in labels][:links] == [f"link {link}" for link in range(links)], "all are there"
            boxes = [box for _, *box in labels] + [[x - r, y - r, x + r, y + r] for x, y, r in nodes]
            for place, (left, top, right, bottom) in enumerate(boxes):
                assert left >= 0 and top >= 0 and right <= width
                for other in boxes[:place]:
                    assert left >= other[2] or right <= other[0] or top >= other[3] or bottom <= other[1], (tick, labels)
        assert widest(browser) <= width
        press(browser, "2")
        assert widest(browser) <= width
    assert errors(browser) == []


@pytest.mark.parametrize("size", [(1280, 800), (390, 844)])
def test_a_packet_at_its_sender_hides_no_label(browser, make_page, sized, tmp_path, size):
    """Numbers of members and of links look the same at the tick of sending as where packets are not shown."""
    made = scenarios.chain(4, delay=10)
    for draw in range(5):
        made = made.draw(0, ink=draw)
    page = make_page(made.write(tmp_path / "five.toml"))
    sized(*size)
    pictures = []
    for hide in ("", "data,request,repair,session"):
        show(browser, page, f"tick=0&hide={hide}")
        pictures.append(browser.execute_script("""
            const { surface, x, y, labels, network } = srmPage.views.network;
            const numbers = network.memberNodes.map((node) => [x[node] - 7, y[node] - 7, x[node] + 7, y[node] + 7]);
            const words = labels.items.filter(({ text }) => text.startsWith("link")).map(({ box }) => box);
            return [...numbers, ...words].map(([left, top, right, bottom]) => Array.from(
              surface.context.getImageData(left, top, right - left, bottom - top).data));"""))
        assert browser.execute_script("return srmPage.model.trace.packets.length") >= 5
    shown, bare = pictures
    assert len(shown) == len(bare) == 7
    for one, other in zip(shown, bare):
        assert max(abs(a - b) for a, b in zip(one, other)) < 60


@pytest.fixture
def saved(browser, tmp_path):
    """Saves something by a key or a button, and gives the file that comes of it."""
    folder = tmp_path / "saved"
    browser.execute_cdp_cmd("Browser.setDownloadBehavior", {"behavior": "allow", "downloadPath": str(folder)})

    def save(name, act):
        path, until = folder / name, time.monotonic() + 20
        act()
        while not path.exists():
            assert time.monotonic() < until, name
            time.sleep(0.05)
        return path

    return save


def pixels(png):
    """A PNG's pixels, of three numbers from 0 to 1 each."""
    return pyplot.imread(png if isinstance(png, Path) else io.BytesIO(png), format="png")[:, :, :3]


def assert_alike(one, other):
    """Two pictures are of one size, and differ no more than at the edges of letters."""
    assert one.shape == other.shape
    assert (abs(one - other).max(axis=2) > 0.5).mean() < 0.0015


@pytest.mark.parametrize("name, moment, view, words", [
    ("chain-of-five-one-loss", "tick=15.5&select=loss:0/0/0", "network",
     ["chain-of-five-one-loss, tick 15", "0", "4", "link 3", "0/0/0", "lacks, and waits to ask: 1", "request"]),
    ("outage-in-mid-session", "tick=85&view=sequence&theme=dark", "sequence",
     ["outage-in-mid-session, tick 85", "2", "85", "link 1 out", "timer set", "repair"]),
])
def test_a_view_is_saved_as_a_picture(browser, make_page, saved, sized, name, moment, view, words):
    show(browser, make_page(EXAMPLES / f"{name}.toml"), moment)
    paper = browser.execute_script("return srmPage.theme.paper")
    named = browser.execute_script("return Array.from(document.querySelectorAll('.save button'), (it) => it.ariaLabel)")
    assert named == ["Save the picture as SVG", "Save the picture as PNG"]
    svg = saved(f"{name}.{view}.svg", lambda: click(browser, "#svg"))
    png = saved(f"{name}.{view}.png", lambda: click(browser, "#png"))
    assert errors(browser) == [] and requests(browser) == []
    root = ElementTree.parse(svg).getroot()
    tags = {element.tag.removeprefix("{http://www.w3.org/2000/svg}") for element in root.iter()}
    assert tags == {"svg", "title", "desc", "g", "clipPath", "path", "rect", "text"}, "no script, no style, no picture"
    for element in root.iter():
        assert not [key for key in element.keys() if key.startswith("on") or key in ("class", "style", "href")]
        assert all(not value.startswith("url(") or value.startswith("url(#") for value in element.attrib.values())
    assert root[2].get("fill") == paper
    assert set(words) <= {element.text for element in root.iter() if element.tag.endswith("}text")}
    width, height = int(root.attrib["width"]), int(root.attrib["height"])
    sized(width, height, 2)
    browser.get(svg.as_uri())
    drawn = base64.b64decode(browser.execute_cdp_cmd("Page.captureScreenshot", {"format": "png"})["data"])
    assert errors(browser) == [] and requests(browser) == []
    assert_alike(pixels(drawn), pixels(png))
    rsvg = shutil.which("rsvg-convert")
    if rsvg:
        done = subprocess.run([rsvg, "--zoom", "2", str(svg)], capture_output=True, check=True)
        assert_alike(pixels(done.stdout), pixels(png))


def test_pictures_are_saved_by_keys(browser, make_page, saved):
    show(browser, make_page(EXAMPLES / "two-nodes.toml"))
    assert saved("two-nodes.network.svg", lambda: press(browser, "v")).read_text().startswith("<svg ")
    assert saved("two-nodes.network.png", lambda: press(browser, "b")).read_bytes().startswith(b"\x89PNG")
    assert browser.execute_script("return document.getElementById('told').textContent") == (
        "The picture is saved as two-nodes.network.png.")


def large(draws):
    """A tree of 1,024 members, with losses at nine links."""
    lines = ['version = 2', 'until = 10000000', 'c1 = 2000', 'c2 = 2000', 'd1 = 1000', 'd2 = 1000',
             'topology = "tree"', 'size = 1024', 'delay = 1000', 'degree = 4', 'member = [']
    lines += [f'{{ node = {node}, role = "{"receiver" if node else "sender"}", stream = {node + 1} }},'
              for node in range(1024)]
    lines += ["]", "draw = ["]
    lines += [f"{{ member = 0, page = 0, ink = {draw}, at = {700 * draw} }}," for draw in range(draws)]
    lines += ["]", "drop = ["]
    lines += [f"{{ link = {link}, sender = 0, count = {3 * place} }},"
              for place, link in enumerate((3, 40, 200, 900, 11, 500, 77, 650, 333))]
    return "\n".join([*lines, "]"])


def test_a_run_of_1024_members_and_250000_rows(browser, make_page, srm_lab, tmp_path):
    """It is small, plays, and has the program's tables."""
    scenario = tmp_path / "large.toml"
    scenario.write_text(large(220))
    trace = srm_lab(scenario.read_text())
    assert 240_000 < trace.count("\n") <= 250_001
    path = make_page(scenario)
    room = path.stat().st_size - len(library().encode())
    assert room <= 5 * len(gzip.compress(trace.encode(), 9))
    show(browser, path)
    before = browser.execute_script("srmPage.player.play(); return srmPage.player.tick")
    wait_for(browser, f"return srmPage.player.tick > {before}")
    for table in ("members", "losses", "links"):
        must = srm_lab(scenario.read_text(), "--show", table)
        assert browser.execute_script(f"return srmPage.model.csv('{table}')") == must, table
    assert errors(browser) == []
