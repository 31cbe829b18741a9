"""How scenarios and runs show themselves: in a line, and in a notebook as a picture and tables."""
from collections.abc import Iterable, Iterator, Sequence
from html import escape
from typing import TYPE_CHECKING

from .parts import CONSTANTS
from .tree_picture import MOST_NODES, TreePicture

if TYPE_CHECKING:
    from .parts import Outage
    from .runs import Runs
    from .scenario import Scenario

MOST_ROWS = 20  # of the table of losses
FEW = 6  # numbers, which are all told
LossRow = tuple[str, str, str]  # links, what they lose, and when


def counted(number: int, word: str) -> str:
    """So many of a thing."""
    return f"{number:,} {word}{'' if number == 1 else 's'}"


def line_of(given: "Scenario") -> str:
    """A scenario in a line: how much of each part it has, and its timers."""
    kind = given.tree.shorthand.get("topology")
    network = f"{kind if kind in ('chain', 'star') else 'tree'} of {counted(given.tree.nodes, 'node')}"
    parts = (("member", given.members), ("draw", given.draws), ("session message", given.sessions), ("drop", given.drops),
             ("outage", given.outages))
    told = [network, *(counted(len(several), word) for word, several in parts if several)]
    if given.random_losses:
        told.append(f"losses at random on {counted(len({one.link for one in given.random_losses}), 'link')}")
    constants = " ".join(f"{name}={getattr(given, name) / 1000:g}" for name in CONSTANTS)
    more = [*(["adaptive timers"] if given.is_adaptive else []), *(["local recovery"] if given.is_local else []),
            *([] if given.until is None else [f"until {given.until:,}"])]
    return ", ".join([f"{', '.join(told)}; {constants}", *more])


def scenario_html(given: "Scenario") -> str:
    """A scenario in a notebook: its line, its network as a picture, and what is lost on which links."""
    small = given.tree.nodes <= MOST_NODES
    picture = TreePicture(given).svg() if small else f"<p>Networks of up to {MOST_NODES:,} nodes are drawn.</p>"
    return f"<div><p>{escape(line_of(given))}</p>\n{picture}{losses_html(given)}</div>"


def losses_html(given: "Scenario") -> str:
    """The table of what is lost, or nothing where nothing is."""
    rows = list(loss_rows(given))
    if not rows:
        return ""
    more = len(rows) - MOST_ROWS
    told = [*rows[:MOST_ROWS], *([("..", f"and {more:,} more rows", "")] if more > 0 else [])]
    lines = "\n".join(f"<tr>{''.join(f'<td>{escape(cell)}</td>' for cell in row)}</tr>" for row in told)
    head = "".join(f"<th>{name}</th>" for name in ("link", "loses", "when"))
    return f'<table class="dataframe">\n<thead><tr>{head}</tr></thead>\n<tbody>\n{lines}\n</tbody></table>\n'


def loss_rows(given: "Scenario") -> Iterator[LossRow]:
    """A row for each rule by which links lose packets: at random, in outages, or by number."""
    rules: dict[tuple[int, int, int, int | None, int | None], list[int]] = {}
    for one in given.random_losses:
        rules.setdefault((one.rate, one.stream, one.first, one.end, one.burst), []).append(one.link)
    for (rate, stream, first, end, burst), links in rules.items():
        what = "at random" if burst is None else f"in bursts of {counted(burst, 'tick')}"
        own = f", stream {stream}" if stream else ""
        yield links_told(given, links), f"{rate / 10_000:g}% of all packets, {what}{own}", time_told(first, end)
    for link, outages in given.outages_of.items():
        yield links_told(given, [link]), "all packets", outages_told(outages)
    drops: dict[tuple[int, int], list[int]] = {}
    for drop in given.drops:
        drops.setdefault((drop.link, drop.sender), []).append(drop.count)
    for (link, sender), counts in drops.items():
        word = "packet" if len(counts) == 1 else "packets"
        yield links_told(given, [link]), f"{word} {several(counts)} of member {sender}", ""


def links_told(given: "Scenario", links: Sequence[int]) -> str:
    """Links by their numbers; of one also its ends."""
    if len(links) == 1:
        ends = given.tree.route(links[0]) if links[0] < len(given.tree.links) else ()
        return f"{links[0]} ({ends[0]} to {ends[-1]})" if ends else str(links[0])
    return f"all {len(links):,}" if set(links) == set(range(len(given.tree.links))) else several(links)


def several(numbers: Sequence[int]) -> str:
    """Numbers, of many the first and the last."""
    if len(numbers) <= FEW:
        return ", ".join(f"{one:,}" for one in numbers)
    return f"{', '.join(f'{one:,}' for one in numbers[:3])}, .., {numbers[-1]:,} ({len(numbers):,})"


def time_told(first: int, end: int | None) -> str:
    """The ticks from a first one up to below an end."""
    if end is not None:
        return f"ticks {first:,} to {end - 1:,}" if end > first + 1 else f"tick {first:,}"
    return f"from tick {first:,}" if first else "always"


def outages_told(outages: "Sequence[Outage]") -> str:
    """When a link is out."""
    times = [time_told(one.first, one.end) for one in outages]
    return times[0] if len(times) == 1 else f"{times[0]}, .., {times[-1]} ({len(times):,} outages)"


def runs_line(runs: "Runs") -> str:
    """Runs in a line: how many, and of what."""
    return f"{counted(len(runs.seeds), 'run')} of a {line_of(runs.given)}"


def runs_text(runs: "Runs") -> str:
    """Runs as text: their line, and below it each table."""
    tables = (f"{name}: {counted(len(table), 'row')}\n{table}" for name, table in runs.tables.items())
    return "\n\n".join((runs_line(runs), *tables))


def runs_html(runs: "Runs") -> str:
    """Runs in a notebook: their line, and below it each table."""
    return "\n".join((f"<p>{escape(runs_line(runs))}</p>", *_tables_html(runs)))


def _tables_html(runs: "Runs") -> Iterable[str]:
    for name, table in runs.tables.items():
        shown = table.to_html(max_rows=10, show_dimensions=False, notebook=True)
        yield f"<p><b>{name}</b>: {counted(len(table), 'row')}</p>\n{shown}"
