"""What figures show: means with intervals over seeds, quartiles, and axes that say what they are."""
import itertools
import re

import pandas
import pytest
from matplotlib.container import ErrorbarContainer
from matplotlib.transforms import Bbox

import adaptive_figures
import figures
import local_figures
import rounds_table

HEADER = ("kind,adaptive,size,members,drop_link,delay,c1,d1,c2,seed,operation,losers,left,open,requests,repairs,"
          "least_delay,greatest_delay,last_delay,last_round_trip,every,scope,steps,requests_heard,repairs_heard,hearing,"
          "longest_delay\n")
ROWS = "".join(
    f"chain,{hops == 1},{size},{size},hops:{hops},1000,2,1,{c2},{seed},0/0/90,3,0,0,{seed},1,{1000 * (hops + 3)},"
    f"{1000 * (hops + 3)},6000,4000,{500 * c2},{'least' if seed > 1 else 0},{1 if seed == 2 else 2},{size / seed},{size},"
    f"{seed},{hops}\n"
    for size in (10, 20) for hops in (1, 2) for c2 in (1, 2) for seed in (1, 2, 3))
WORDS: dict[str, dict[str, str]] = {
    "over_session_size": {"over": "size"}, "requests_in_a_star": {}, "chain_of_sure_timers": {},
    "requests_against_delay": {}, "lines": {"x": "c2", "y": "ratio", "by": "drop_link"},
    "over_rounds": {}, "adapted_over_size": {"over": "members"}, "over_spacing": {}, "local": {},
}
LABELS = {
    "over_session_size": ["requests for a loss", "repairs for a loss", "(round trips to the source)", "nodes",
                          "requests: mean, 95% interval over seeds", "requests: quartiles of all losses", "(a)", "(c)"],
    "requests_in_a_star": ["requests for a loss", "C2", "theory, 1 + n / C2, n = 8", "(a)", "(b)",
                           "n = 8, C1 = 2: mean, 95% interval over seeds"],
    "chain_of_sure_timers": ["packets for a loss", "recovery delay (delays of a link)", "(b)",
                             "theory, C1 s + 2 + D1, C1 = 2, D1 = 1", "s: links from the source to the first loser"],
    "requests_against_delay": ["requests for a loss", "delay of the last member (round trips to the source)",
                               "first loser 2 links away, C1 = 2: means, 95% intervals over seeds",
                               "(a) chain of 10 members; at each mark its C2"],
    "over_rounds": ["requests for a loss", "repairs for a loss", "round", "(a) srm_lab, 3 seeds: each round",
                    "(b) means of 20 rounds", "(f)", "srm_lab, fixed timers: median of the seeds",
                    "srm_lab, adaptive timers: quartiles of the seeds",
                    "srm_lab, adaptive timers: mean, 95% interval over seeds"],
    "adapted_over_size": ["requests for a loss", "session size (members); rounds 41 to 46",
                          "srm_lab, adaptive timers, 3 seeds: mean, 95% interval over seeds", "(a)", "(c)"],
    "over_spacing": ["requests for a loss", "repairs for a loss", "ticks from a loss to the next", "1,000", "2,000",
                     "adaptive timers: mean, 95% interval over seeds", "(a) chain of 10 nodes", "(f)"],
    "local": ["members that hear a request,", "longest delay of a loser", "session size (members)", "(a) 10 nodes", "(h)",
              "one step: median of the runs", "two steps: quartiles of the runs"],
    "lines": ["C2", "(round trips to the source)", "link that loses hops:2: mean, 95% interval over seeds"],
}
TABLES = {"over_session_size": 1, "requests_in_a_star": 2, "chain_of_sure_timers": 1, "requests_against_delay": 2,
          "lines": 1, "over_rounds": 1, "adapted_over_size": 1, "over_spacing": 2, "local": 2}


def test_mean_over_seeds_its_interval_and_quartiles_of_all_losses():
    # means of the seeds are 2 and 6; Student's t for 2 seeds is 12.7062, the standard error 2
    table = pandas.DataFrame({"c2": 1, "seed": [1, 1, 2, 2], "requests": [1, 3, 5, 7]})
    points = figures.points_of(table, "c2", "requests").loc[1]
    assert points["mean"] == 4 and points["low"] == pytest.approx(4 - 2 * 12.7062, abs=1e-3)
    assert (points["lower"], points["upper"]) == (2.5, 5.5)


def drawn(tmp_path, draw, words, rows, name="one"):
    """The pictures of a figure whose tables all have these rows."""
    path, svg, png = (tmp_path / f"{name}.{ending}" for ending in ("csv", "svg", "png"))
    path.write_text(HEADER + rows)
    figures.draw({"draw": draw, **words}, svg, png, *[path] * TABLES[draw])
    return svg.read_bytes(), png.read_bytes()


def texts_of(svg):
    return re.findall(r"<text[^>]*>([^<]*)</text>", svg.decode())


@pytest.mark.parametrize("draw", figures.DRAWS)
def test_axes_have_labels_and_one_table_gives_one_picture(draw, tmp_path):
    first, second = (drawn(tmp_path, draw, WORDS[draw], ROWS, name) for name in ("first", "second"))
    assert first == second
    assert [label for label in LABELS[draw] if label not in texts_of(first[0])] == []


@pytest.mark.parametrize("over, label", [("size", "nodes"), ("members", "session size (members)"), ("c2", "C2")])
def test_label_of_an_axis_is_that_of_what_is_drawn(over, label, tmp_path):
    texts = texts_of(drawn(tmp_path, "over_session_size", {"over": over}, ROWS)[0])
    assert label in texts
    assert label == "session size (members)" or "session size (members)" not in texts


def test_what_is_left_out_is_counted_in_the_figure(tmp_path):
    rows = ROWS + ("chain,True,10,10,hops:1,1000,2,1,1,1,0/0/2,3,1,2,9,1,,,,\n"  # two members lack it to the end
                   "chain,True,10,10,hops:1,1000,2,1,1,1,0/0/4,2,2,0,9,1,,,,\n")  # both losers left
    texts = texts_of(drawn(tmp_path, "lines", WORDS["lines"], rows)[0])
    assert any("left out: 1 of 26 operations, which some member lacked to the end" in text for text in texts)
    assert any("left out: 1 of 26 operations, all of whose losers left" in text for text in texts)
    assert any("3 losses ended with a leave" in text for text in texts)
    assert not any("left out" in text for text in texts_of(drawn(tmp_path, "lines", WORDS["lines"], ROWS)[0]))


def test_quartiles_that_are_the_same_are_a_line_and_no_band(tmp_path):
    rows = ROWS.replace(",1000,2,1,1,2,", ",1000,2,1,1,1,")
    texts = texts_of(drawn(tmp_path, "over_session_size", {"over": "size"}, rows)[0])
    assert "repairs: quartiles of all losses, both the same" in texts  # each loss has one repair
    assert "requests: quartiles of all losses" in texts  # and one to three requests


@pytest.mark.parametrize("losers, c2, expected", [
    (99, 1, 99),  # all ask: the interval is as wide as the way from one to the other
    (1, 7, 1),
    (2, 4, 1 + 7 / 16),  # two of 0..4 are less than 1 apart with a chance of 1 - (3 / 4)^2
    (32, 16, 3),
])
def test_expected_requests_in_a_star(losers, c2, expected):
    assert figures.requests_of(losers, c2) == pytest.approx(expected)


def test_no_line_runs_through_a_label(tmp_path):
    path = tmp_path / "one.csv"
    path.write_text(HEADER + "".join(
        f"chain,True,10,10,hops:{hops},1000,2,1,{c2},{seed},0/0/0,3,0,0,{hops + (c2 - 3)**2 + seed},1,"
        f"{delay},{delay},{delay},4000\n"
        for hops in (1, 2) for c2 in range(1, 7) for seed in (1, 2, 3) for delay in [1000 * (hops + c2) + 50 * seed]))
    figure = figures.requests_against_delay([figures.read(path)] * 2, {})
    for axes in figure.axes:
        labels = [text.get_window_extent() for text in axes.texts]
        assert len(labels) == 12
        for box in labels:
            assert sum(box.overlaps(other) for other in labels) == 1  # itself
            for container in axes.containers:
                line, _, bars = container.lines
                for stroke in [line.get_path(), *(path for bar in bars for path in bar.get_paths())]:
                    assert not axes.transData.transform_path(stroke).intersects_bbox(box, filled=False)


def test_no_legend_stands_over_data(tmp_path, monkeypatch):
    path = tmp_path / "one.csv"
    path.write_text(HEADER + ROWS)
    for draw, function in figures.DRAWS.items():
        figure = function([figures.read(path) for _ in range(TABLES[draw])], WORDS[draw])
        figure.canvas.draw()
        for axes in figure.axes:
            legend = axes.get_legend()
            assert legend is None or not legend.get_window_extent().overlaps(axes.get_window_extent()), draw


def test_local_recovery_has_a_line_for_each_of_its_three_modes(tmp_path):
    # without a scope steps decide nothing, so that its runs in one step are those in two
    rows = [("0", 1, 9), ("0", 2, 9), ("0", 2, 11), ("least", 1, 3), ("least", 2, 1), ("least", 2, 2), ("least", 2, 6)]
    table = pandas.DataFrame([{"size": 100, "scope": scope, "steps": steps, **dict.fromkeys(local_figures.MEASURES, heard)}
                              for scope, steps, heard in rows])
    found = {mode: local_figures.of_mode(table, mode)["hearing"].tolist() for mode in local_figures.MODES}
    assert found == {"to all": [9, 11], "one step": [3], "two steps": [1, 2, 6]}
    axes = figures.local([table], {}).axes
    medians = [[line.get_ydata()[0] for line in part.lines] for part in axes]
    assert medians == [[10, 3, 2]] * 4 and axes[-1].get_xlabel() == "session size (members)"
    assert local_figures.told(table) == "each node a member"
    lossy = table.assign(members=30, loss=0.1, burst=1000)
    assert local_figures.told(lossy) == "30 members on 100 nodes, packets lost in bursts of 1,000 ticks"
    assert figures.local([lossy], {"over": "loss"}).axes[-1].get_xlabel() == "probability of a loss on a link"
    figures.plot.close("all")


def test_round_of_a_loss_and_means_of_blocks_of_rounds():
    # draws 0, 2, 38 and 40 are lost in rounds 1, 2, 20 and 21; the two seeds' means are 2 and 6 in the first 20 rounds
    table = adaptive_figures.with_rounds(pandas.DataFrame({
        "operation": [f"0/0/{number}" for number in (0, 2, 38, 40, 0, 2, 38, 40)], "seed": [1] * 4 + [2] * 4,
        "requests": [1, 2, 3, 9, 5, 6, 7, 9]}))
    assert list(table["round"][:4]) == [1, 2, 20, 21]
    points = adaptive_figures.block_means(table, "requests")
    assert list(points.index) == [10.5, 30.5] and list(points["mean"]) == [4, 9]
    assert points["low"][10.5] == pytest.approx(4 - 2 * 12.7062, abs=1e-3)  # Student's t for 2 seeds


def test_table_of_rounds_has_a_line_for_each_kind_of_timers_in_each_block():
    # both seeds have the same, so that each interval is one number: requests n, 2 n repairs, n / 2 round trips
    rows = [{"operation": f"0/0/{number}", "adaptive": adaptive, "seed": seed, "requests": asked, "repairs": 2 * asked,
             "ratio": asked / 2} for number, asked in ((0, 8), (38, 4), (40, 3), (198, 1)) for adaptive in (False, True)
            for seed in (1, 2)]
    table = adaptive_figures.with_rounds(pandas.DataFrame(rows))
    assert list(rounds_table.lines(table)) == [
        f"| {block} | {kind} | {told} |" for block, told in (
            ("1 to 20", "6.00 [6.00, 6.00] | 12.00 [12.00, 12.00] | 3.00 [3.00, 3.00]"),
            ("21 to 40", "3.00 [3.00, 3.00] | 6.00 [6.00, 6.00] | 1.50 [1.50, 1.50]"),
            ("81 to 100", "1.00 [1.00, 1.00] | 2.00 [2.00, 2.00] | 0.50 [0.50, 0.50]"))
        for kind in ("fixed", "adaptive")]


def test_ns2_stands_beside_srm_lab_where_there_is_a_second_table(tmp_path):
    path = tmp_path / "one.csv"
    path.write_text(HEADER + ROWS)
    figure = figures.over_rounds([figures.read(path) for _ in range(2)], {})
    assert [axes.get_title("left") for axes in figure.axes[:3]] == [
        "(a) srm_lab, 3 seeds: each round", "(b) ns-2, 3 seeds: each round", "(c) means of 20 rounds"]
    told = [[text.get_text().split(":")[0] for text in axes.get_legend().get_texts()] for axes in figure.axes[6:]]
    ours, theirs = ([f"{program}, {kind} timers" for kind in ("fixed", "adaptive")] for program in ("srm_lab", "ns-2"))
    assert [sorted({*labels}) for labels in told] == [sorted(ours), sorted(theirs), sorted(ours + theirs)]


def test_ns2_stands_beside_srm_lab_at_each_size(tmp_path):
    ours, theirs = tmp_path / "ours.csv", tmp_path / "theirs.csv"
    ours.write_text(HEADER + ROWS)
    # of ns-2 there are adaptive timers alone, sessions of 10, and two seeds
    theirs.write_text(HEADER + "".join(
        row for row in ROWS.splitlines(keepends=True) if row.startswith("chain,True,10,") and ",3,0/0/" not in row))
    figure = figures.adapted_over_size([figures.read(str(path)) for path in (ours, theirs)], {})
    found = {lines.get_label().split(":")[0]: lines.lines[0].get_xdata().tolist() for lines in figure.axes[0].containers
             if isinstance(lines, ErrorbarContainer)}
    assert found == {"srm_lab, fixed timers, 3 seeds": [7.6, 17.6], "srm_lab, adaptive timers, 3 seeds": [10, 20],
                     "ns-2, adaptive timers, 2 seeds": [12.4]}


def test_large_and_larger_networks_stand_side_by_side_on_the_same_axes(tmp_path):
    paths = [tmp_path / f"{size}.csv" for size in (1000, 5000)]
    for size, path in zip((1000, 5000), paths):
        path.write_text(HEADER + ROWS.replace("chain,False,10,10", f"chain,False,{size},10")
                        .replace("chain,True,10,10", f"chain,True,{size},10")
                        .replace(",20,20,", f",{size},20,"))
    figure = figures.over_session_size([figures.read(path) for path in paths], {"over": "members"})
    assert [axes.get_title("left") for axes in figure.axes] == [
        "(a) 1,000 nodes", "(b) 5,000 nodes", "(c)", "(d)", "(e)", "(f)"]
    for left, right in zip(figure.axes[::2], figure.axes[1::2]):
        assert left.get_ylim() == right.get_ylim() and left.get_xlim() == right.get_xlim()
        assert [tick.get_text() for tick in right.get_xticklabels()] == ["10", "20"]


def test_two_kinds_of_timers_do_not_stand_over_each_other(tmp_path):
    path = tmp_path / "one.csv"
    path.write_text(HEADER + ROWS)
    for draw, places in (("adapted_over_size", ([8.8, 18.8], [11.2, 21.2])),
                         ("over_spacing", ([-0.12, 0.88], [0.12, 1.12]))):
        figure = figures.DRAWS[draw]([figures.read(path) for _ in range(TABLES[draw])], {})
        for axes in figure.axes:
            fixed, adaptive = ([round(x, 3) for x in lines.lines[0].get_xdata()] for lines in axes.containers
                               if isinstance(lines, ErrorbarContainer))
            assert (fixed, adaptive) == places


def bars_at(axes):
    """Of each tick of an axis what stands there: the box of each mean's mark and bar, in dots."""
    found: dict[float, list[Bbox]] = {}
    ticks = axes.get_xticks()
    for lines in (it for it in axes.containers if isinstance(it, ErrorbarContainer)):
        marks, caps, (bars,) = lines.lines
        for segment, (x, _) in zip(bars.get_segments(), marks.get_xydata()):
            (left, low), (right, high) = axes.transData.transform(segment)
            half = max(line.get_markersize() for line in (marks, *caps)) / 2 * axes.figure.dpi / 72
            box = Bbox([(left - half, low), (right + half, high)])
            found.setdefault(min(ticks, key=lambda tick: abs(tick - x)), []).append(box)
    return found


@pytest.mark.parametrize("x, by, crowded, labels", [
    ("c2", "drop_link", False, ["1", "2"]), ("drop_link", "c2", False, ["hops:1", "hops:2"]),
    ("adaptive", "size", False, ["False", "True"]), ("c2", "size", True, ["0", "1", "2", "4", "8", "16", "32", "64"])])
def test_bars_of_lines_at_one_x_stand_beside_each_other(tmp_path, x, by, crowded, labels):
    path = tmp_path / "one.csv"
    path.write_text(HEADER + (ROWS if not crowded else "".join(
        f"chain,True,{size},{size},hops:1,1000,2,1,{c2},{seed},0/0/0,3,0,0,{seed},1,5,5,{c2}{seed},4000,500\n"
        for size in (10, 20, 30) for c2 in labels for seed in (1, 2, 3))))
    figure = figures.lines([figures.read(path)], {"x": x, "y": "ratio", "by": by})
    figure.canvas.draw()
    axes, = figure.axes
    found = bars_at(axes)
    assert [label.get_text() for label in axes.get_xticklabels()] == labels and len(found) == len(labels)
    for tick, boxes in found.items():
        assert len(boxes) == (3 if crowded else 2)
        assert not [(tick, one, other) for one, other in itertools.combinations(boxes, 2) if one.overlaps(other)]
    names = [label.get_window_extent() for label in axes.get_xticklabels()]
    assert not [1 for one, other in itertools.combinations(names, 2) if one.overlaps(other)]
