"""The experiments and figures of a configuration: what they ask for, and whether that can be done."""
from collections.abc import Collection, Iterable, Mapping
from itertools import product
from typing import Any, NamedTuple

from .errors import ScenarioError, perhaps
from .limits import MOST_SEED, within
from .metrics import function_of

OWN = ("kind", "losses", "seeds", "metrics", "agent", "path")
AGENTS = ("srm_lab", "ns2")
TOP = ("program", "python", "results", "experiments", "figures")
FIGURE = ("draw", "of", "x", "y", "by", "over")
LISTED = ("join", "leave", "outage", "drop_packet")
FLAGS = ("adaptive", "any_packet", "no_session", "spare_draws")
NAME = ("source", "page", "number")
# what the recovery of an operation took, with the least and greatest delays of those that recovered, and of the last one
COLUMNS = ("losers", "left", "open", "requests", "repairs", "least_delay", "greatest_delay", "last_delay", "last_round_trip")


class Needs(NamedTuple):
    """What a kind of figure needs: of how many experiments it may be, and which keys each of them has to have."""

    most: int
    keys: tuple[str, ...] = ()


class Experiment:
    """A grid of points: the product of all lists of its configuration."""

    def __init__(self, name: str, config: dict[str, Any]):
        self.name = name
        if not isinstance(config, dict) or "kind" not in config or "seeds" not in config:
            raise ScenarioError(f"experiment {name}: kind and seeds have to be there")
        self.config = dict(config)
        self.metrics: dict[str, str] = self.config.pop("metrics", {})
        self.agent = self._agent(self.config.get("agent", AGENTS[0]))
        self.seeds = self._seeds(self.config["seeds"])
        lists = {key: value if isinstance(value, list) else [value]
                 for key, value in self.config.items() if key != "seeds"}
        self.varied = [key for key, values in lists.items() if len(values) > 1]
        self.points = {}
        for values in product(*lists.values()):
            point = dict(zip(lists, values))
            label = "_".join(f"{key}-{safe(point[key])}" for key in self.varied) or "only"
            self.points[label] = point
        if len(self.points) != len(list(product(*lists.values()))):
            raise ScenarioError(f"experiment {name}: a list has a value twice")

    def _agent(self, given: Any) -> str:
        """Whose runs these are: srm_lab's, or those of the SRM agent of ns-2, which has rounds of loss only."""
        known(f"experiment {self.name}, agent", [given], AGENTS)
        if given != AGENTS[0] and (self.metrics or "rounds" not in self.config):
            raise ScenarioError(f"experiment {self.name}: {given} needs rounds, and has no metrics")
        return str(given)

    def _seeds(self, given: Any) -> list[int]:
        """The seeds: those listed, or 1 to the number given."""
        what = f"experiment {self.name}: seeds"
        seeds = given if isinstance(given, list) else list(range(1, within(what, given, 1, MOST_SEED) + 1))
        if not seeds or len({str(seed) for seed in seeds}) < len(seeds):
            raise ScenarioError(f"{what} are {seeds!r}, and have to be a number, or a list without the same twice")
        return [within(what, seed, 0, MOST_SEED) for seed in seeds]

    @property
    def columns(self) -> list[str]:
        """The columns of its table that a figure may draw."""
        return [*(key for key in self.config if key != "seeds"), *COLUMNS, "ratio", *self.metrics]

    @property
    def parts(self) -> list[list[int]]:
        """The seeds of each job of a point: all in one process, and of ns-2, whose runs take seconds, one."""
        return [self.seeds] if self.agent == AGENTS[0] else [[seed] for seed in self.seeds]

    def words(self, label: str, seed: int) -> list[str]:
        """The words of `srm-scenarios` for a point and a seed."""
        point = self.points[label]
        words = [str(point["kind"])]
        if point["kind"] in ("file", "map"):
            words.append(str(point["path"]))
        for key, value in point.items():
            if key not in OWN:
                words += option(key, value)
        if "losses" in point:
            words += ["--draws", str(2 * point["losses"]), "--drop-every", "2"]
        return [*words, "--seed", str(seed)]

    def check(self) -> None:
        """Refuses a key that is no option of the generators, and a point that is no scenario."""
        from .cli import build, options_of, parser  # a table is put together without these

        for kind in sorted({str(point["kind"]) for point in self.points.values()}):
            known = options_of(kind)
            for key in self.config:
                if key not in OWN and key not in known:
                    keys = sorted({*known, *OWN[:-1]})
                    raise ScenarioError(f"experiment {self.name}: there is no key {key!r}{perhaps(key, keys)}: "
                                        f"{kind} has {', '.join(keys)}")
        self._check_metrics()
        for label in self.points:
            try:
                build(parser().parse_args(self.words(label, self.seeds[0])))
            except ScenarioError as fault:
                raise ScenarioError(f"experiment {self.name}, {label}: {fault}") from None
            except SystemExit:
                raise ScenarioError(f"experiment {self.name}, {label}: the words of the generators above") from None

    def _check_metrics(self) -> None:
        """Refuses a metric that no function gives, or that has the name of another column."""
        if not isinstance(self.metrics, dict):
            raise ScenarioError(f"experiment {self.name}: metrics are no names, each with its FILE.py:FUNCTION")
        for name, where in self.metrics.items():
            if name in (*self.config, "operation", "seed", "ratio", *COLUMNS):
                raise ScenarioError(f"experiment {self.name}: the table has a column {name!r} besides this metric")
            try:
                function_of(str(where))
            except ScenarioError as fault:
                raise ScenarioError(f"experiment {self.name}: {fault}") from None


def option(key: str, value: Any) -> list[str]:
    """The words for a key: one option, or none for a flag that is off; several, parted by spaces, where it repeats."""
    name = f"--{key.replace('_', '-')}"
    if key in FLAGS:
        return [name] if value else []
    if key in LISTED:
        return [word for one in str(value).split() for word in (name, one)]
    return [name, str(value)]


def safe(value: Any) -> str:
    """A value as part of a file's name."""
    return "".join(letter if letter.isalnum() or letter == "." else "-" for letter in str(value))


def experiments_of(config: dict[str, Any]) -> dict[str, Experiment]:
    """The experiments of a configuration, by name."""
    return {name: Experiment(name, one) for name, one in config["experiments"].items()}


def known(what: str, given: Iterable[str], names: Collection[str]) -> None:
    """Refuses a name that is none of those known."""
    for name in given:
        if name not in names:
            raise ScenarioError(f"{what}: there is no {name!r}{perhaps(name, names)}: there are {', '.join(names)}")


def check_config(config: dict[str, Any], draws: Mapping[str, Needs]) -> None:
    """Refuses a configuration of which a part could not be made, before anything is; `draws` are the kinds of figures.
    """
    known("the configuration", config, TOP)
    if not isinstance(config.get("experiments"), dict):
        raise ScenarioError("the configuration: say which experiments")
    experiments = experiments_of(config)
    figures = config.get("figures") or {}
    if not isinstance(figures, dict):
        raise ScenarioError("the configuration: figures are no names, each with what it is of")
    for name, one in figures.items():
        if not isinstance(one, dict) or "draw" not in one or "of" not in one:
            raise ScenarioError(f"figure {name}: draw and of have to be there")
        known(f"figure {name}", one, FIGURE)
        known(f"figure {name}, draw", [one["draw"]], draws)
        check_figure(f"figure {name}", one, draws[one["draw"]], experiments)
    for experiment in experiments.values():
        experiment.check()


def check_figure(what: str, one: dict[str, Any], needs: Needs, experiments: dict[str, Experiment]) -> None:
    """Refuses a figure of experiments that are not there or do not fit it, or of a column that these do not have."""
    wanted = one["of"]
    if not isinstance(wanted, list) or not 1 <= len(wanted) <= needs.most:
        several = "one experiment" if needs.most == 1 else f"1 to {needs.most} experiments"
        raise ScenarioError(f"{what}, of: {one['draw']} takes a list of {several}")
    known(f"{what}, of", wanted, experiments)
    if one["draw"] == "lines" and not {"x", "y"} <= set(one):
        raise ScenarioError(f"{what}: lines need x and y")
    for name in wanted:
        config = experiments[name].config
        keys = [one[key] for key in ("x", "by", "over") if key in one]
        if one["draw"] == "over_session_size" and not keys:
            keys = ["size"]
        known(f"{what}, of {name}", [*keys, *needs.keys], list(config))
        if "y" in one:
            known(f"{what}, of {name}, y", [one["y"]], experiments[name].columns)
        hops = config.get("drop_link") if "drop_link" in needs.keys else []
        for link in hops if isinstance(hops, list) else [hops]:
            if not str(link).startswith("hops:"):
                raise ScenarioError(f"{what}, of {name}: {one['draw']} needs links hops:H, and drop_link has {link!r}")
