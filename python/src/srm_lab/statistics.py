"""Statistics over runs. The replications are the seeds: losses of one run depend on each other, runs do not."""
import math
from collections.abc import Callable, Iterable, Mapping, Sequence
from dataclasses import dataclass
from numbers import Real
from typing import TYPE_CHECKING, Any, Union, overload

import numpy
import pandas
from scipy import special

from .errors import ScenarioError, perhaps, spelled

if TYPE_CHECKING:
    from .runs import Runs

METHODS = ("t", "bootstrap")
RESAMPLES = 9999
SUMMARY = ["mean", "low", "high", "seeds", "values", "left_out"]
PAIRED = ["mean", "low", "high", "seeds", "first", "second"]
VALUE = "(value)"  # a column beside those of a table
WORDS = ("mean", "median", "min", "max", "sum", "prod", "std", "var", "sem", "skew", "count", "size", "nunique", "first", "last")
# of the values of one run: one of these words, which are pandas' own, a quantile from 0 to 1, or a function of a Series
Statistic = Union[str, float, Callable[[pandas.Series], float]]


@dataclass(frozen=True)
class Interval:
    """A mean over seeds, and an interval for it."""

    mean: float
    low: float
    high: float


@spelled
def interval(values: "pandas.Series | Sequence[float]", method: str = "t", level: float = 0.95) -> Interval:
    """The mean of values, one for each seed, with a confidence interval.

    `t` is Student's interval, for means of roughly normal values; `bootstrap` the percentiles of the means of 9,999
    resamples of the seeds, drawn with one fixed seed. Fewer than two values have no interval.
    """
    _check(method, level)
    data = numpy.asarray(values, dtype=float)
    data = data[~numpy.isnan(data)]
    mean = float(data.mean()) if len(data) else math.nan
    if len(data) < 2:
        return Interval(mean, math.nan, math.nan)
    if method == "t":
        return _students(mean, error_of(data), len(data) - 1, level)
    from scipy import stats  # takes as long to load as all else, and is needed here alone

    found = stats.bootstrap((data,), numpy.mean, n_resamples=RESAMPLES, confidence_level=level, method="percentile",
                            random_state=0).confidence_interval
    return Interval(mean, float(found.low), float(found.high))


def _check(method: str, level: float) -> None:
    if method not in METHODS:
        raise ScenarioError(f"method is {method!r}, and has to be one of {', '.join(METHODS)}")
    if not 0 < level < 1:
        raise ScenarioError(f"level is {level!r}, and has to be between 0 and 1")


def _students(mean: float, error: float, freedom: float, level: float) -> Interval:
    """Student's interval of a mean with a standard error."""
    half = error * float(special.stdtrit(freedom, (1 + level) / 2)) if error else 0.0
    return Interval(mean, mean - half, mean + half)


def error_of(data: numpy.ndarray) -> float:
    """The standard error of the mean of independent values."""
    return float(data.std(ddof=1) / math.sqrt(len(data)))


@spelled
def difference(first: Sequence[float], second: Sequence[float], level: float = 0.95) -> Interval:
    """The mean of the second values less that of the first, with Welch's interval for two independent samples.

    For runs that share no random words; `paired` is for those that share their seeds.
    """
    samples = [numpy.asarray(values, dtype=float) for values in (first, second)]
    mean = float(samples[1].mean() - samples[0].mean())
    if min(map(len, samples)) < 2:
        return Interval(mean, math.nan, math.nan)
    # scipy's ttest_ind tells this interval from version 1.11 on
    parts = [error_of(values)**2 for values in samples]
    lost = sum(part**2 / (len(values) - 1) for part, values in zip(parts, samples))
    return _students(mean, math.sqrt(sum(parts)), sum(parts)**2 / lost if lost else math.inf, level)


def evaluated(frame: pandas.DataFrame, expression: str) -> pandas.Series:
    """The numbers of an expression of a table's columns, such as `delay / round_trip`; what has no value is NaN."""
    if not isinstance(expression, str):
        raise TypeError(f"the expression is {expression!r}, and has to be text, such as \"delay / round_trip\"")
    named = frame[[name for name in frame if str(name) in expression]]
    numbers = named.astype({name: float for name, kind in named.dtypes.items() if str(kind) == "Int64"})
    try:
        found = numbers.eval(expression, engine="python")
        return pandas.Series(found, frame.index).astype(float)
    except pandas.errors.UndefinedVariableError as fault:
        raise _no_column(str(fault).split("'")[1], frame) from None
    except (SyntaxError, TypeError, ValueError, NotImplementedError, AttributeError) as fault:
        raise ScenarioError(f"{expression!r} gives no number for each row: {fault}") from None


def table_of(given: "Runs | pandas.DataFrame", expression: str) -> pandas.DataFrame:
    """The table that is given, or the one of runs that has the columns of an expression."""
    if isinstance(given, pandas.DataFrame):
        return given
    if not hasattr(given, "holding"):
        one = f": take one table, as tables[{next(iter(given))!r}]" if isinstance(given, Mapping) and given else ""
        raise TypeError(f"a {type(given).__name__} was given, and has to be a table (a DataFrame) or runs{one}")
    return given.holding(expression)


@spelled
def summarise(given: "Runs | pandas.DataFrame", expression: str, by: str | Sequence[str] | None = None,
              statistic: Statistic | Sequence[Statistic] = "mean", method: str = "t",
              level: float = 0.95) -> pandas.DataFrame | pandas.Series:
    """The mean over seeds of what a column, or an expression of columns, is in each of them, with its interval.

    `statistic` is what is taken of the values of one seed, by default their mean; of a list each has a row. The answer
    has `mean`, `low` and `high`, from how many `seeds` and `values` they are, and how many rows were `left_out` since
    they have no value (a loss that nobody recovered has no delay). With `by` it has a row for each group, as
    `frame.groupby(by).apply(summarise, expression)` has.
    """
    _check(method, level)
    if isinstance(statistic, Sequence) and not isinstance(statistic, str):
        several, chosen = True, [_known(one) for one in statistic]
    else:
        several, chosen = False, [_known(statistic)]
    frame = table_of(given, expression)
    names = [] if by is None else [by] if isinstance(by, str) or not isinstance(by, Iterable) else list(by)
    _check_columns(frame, ["seed", *names])
    values = frame[list(dict.fromkeys(["seed", *names]))].assign(**{VALUE: evaluated(frame, expression)})

    def of(group: pandas.DataFrame) -> pandas.DataFrame | pandas.Series:
        rows = {_name(one): _summary(group, one, method, level) for one in chosen}
        return pandas.DataFrame(rows).T.rename_axis("statistic") if several else rows[_name(chosen[0])]

    if by is None:
        found = of(values)
    else:
        found = (values.groupby(by if isinstance(by, str) else names).apply(of) if len(frame) else
                 pandas.DataFrame(columns=SUMMARY)).astype(dict.fromkeys(SUMMARY[3:], int))
    found.attrs = {**frame.attrs, "expression": expression, "method": method, "level": level}
    return found


def _check_columns(frame: pandas.DataFrame, names: Iterable[str]) -> None:
    for name in names:
        if name not in frame:
            raise _no_column(name, frame)


def _no_column(name: object, frame: pandas.DataFrame) -> ScenarioError:
    return ScenarioError(f"there is no column {name!r}{perhaps(name, frame.columns)}: there are {', '.join(frame.columns)}")


def _known(statistic: Any) -> Statistic:
    """A statistic, which is refused where it is none."""
    if isinstance(statistic, Real) and not isinstance(statistic, bool) and 0 <= float(statistic) <= 1:
        return float(statistic)
    if callable(statistic) or isinstance(statistic, str) and statistic in WORDS:
        return statistic
    raise ScenarioError(f"statistic is {statistic!r}{perhaps(statistic, WORDS)}, and has to be one of {', '.join(WORDS)}, "
                        "a quantile between 0 and 1, or a function")


def _of_seeds(values: pandas.Series, seeds: pandas.Series, statistic: Statistic) -> pandas.Series:
    """A statistic of the values of each seed."""
    groups = values.groupby(seeds)
    return groups.quantile(statistic) if isinstance(statistic, float) else groups.agg(statistic)


def _summary(group: pandas.DataFrame, statistic: Statistic, method: str, level: float) -> pandas.Series:
    values = group[VALUE]
    each = _of_seeds(values, group["seed"], statistic)
    one = interval(each, method, level)
    counts = (each.notna().sum(), values.notna().sum(), values.isna().sum())
    return pandas.Series([*vars(one).values(), *counts], SUMMARY, dtype=float)


def _name(statistic: Statistic) -> str:
    """The name of a statistic's row: q95 is a quantile."""
    if isinstance(statistic, float):
        return f"q{100 * statistic:g}"
    return str(getattr(statistic, "__name__", statistic))


@dataclass(frozen=True)
class Paired:
    """The difference of two settings, seed by seed: `table` has both values and their difference for each seed."""

    table: pandas.DataFrame
    difference: Interval
    method: str


@overload
def paired(first: "Runs | pandas.DataFrame", second: "Runs | pandas.DataFrame", expression: str, by: None = None,
           statistic: Statistic = "mean", method: str = "t", level: float = 0.95) -> Paired: ...


@overload
def paired(first: "Runs | pandas.DataFrame", second: "Runs | pandas.DataFrame", expression: str, by: str | Sequence[str],
           statistic: Statistic = "mean", method: str = "t", level: float = 0.95) -> pandas.DataFrame: ...


@spelled
def paired(first: "Runs | pandas.DataFrame", second: "Runs | pandas.DataFrame", expression: str,
           by: str | Sequence[str] | None = None, statistic: Statistic = "mean", method: str = "t",
           level: float = 0.95) -> Paired | pandas.DataFrame:
    """The second setting less the first, of a column's mean on each seed, with an interval over the seeds.

    Each setting is runs, or a table with their seeds; both need the same seeds. An interval without 0 in it tells the
    two apart. `statistic` stands in place of each seed's mean, as in `summarise`. With `by` the answer is a table with a
    row for each group, which both need to have: its `mean`, `low` and `high` are of the difference, `first` and `second`
    the means of the settings over seeds.
    """
    statistic = _known(statistic)
    one, other = (table_of(given, expression) for given in (first, second))
    if by is None:
        return _paired(one, other, expression, statistic, method, level)
    names = [by] if isinstance(by, str) else list(by)
    groups, others = (_groups(frame, names) for frame in (one, other))
    if groups.keys() != others.keys():
        raise ScenarioError(f"a paired comparison by {', '.join(names)} needs the same groups in both settings")
    rows = {group: _row(_paired(groups[group], others[group], expression, statistic, method, level)) for group in groups}
    index = pandas.MultiIndex.from_tuples(rows, names=names) if len(names) > 1 else pandas.Index(
        [group for group, in rows], name=names[0])
    found = pandas.DataFrame(list(rows.values()), index, PAIRED).astype({"seeds": int})
    found.attrs = {**one.attrs, "expression": expression, "method": method, "level": level}
    return found


def _groups(frame: pandas.DataFrame, names: list[str]) -> dict[tuple[Any, ...], pandas.DataFrame]:
    """The rows of each group of a table, by its values in these columns."""
    _check_columns(frame, ["seed", *names])
    groups = frame.groupby(names if len(names) > 1 else names[0])
    return {group if len(names) > 1 else (group,): rows for group, rows in groups}


def _row(found: Paired) -> list[float]:
    """A row of the table of paired differences."""
    means = found.table.mean()
    return [*vars(found.difference).values(), found.table["difference"].notna().sum(), means["first"], means["second"]]


def _paired(one: pandas.DataFrame, other: pandas.DataFrame, expression: str, statistic: Statistic, method: str,
            level: float) -> Paired:
    (first, seeds), (second, others) = (_side(frame, expression, statistic) for frame in (one, other))
    if seeds != others:
        raise ScenarioError("a paired comparison needs the same seeds in both settings")
    table = pandas.DataFrame({"first": first, "second": second})
    table["difference"] = table["second"] - table["first"]
    return Paired(table, interval(table["difference"], method, level), method)


def _side(frame: pandas.DataFrame, expression: str, statistic: Statistic) -> tuple[pandas.Series, set[int]]:
    """A setting's statistic of each seed, and the seeds, also those without a row."""
    _check_columns(frame, ["seed"])
    each = _of_seeds(evaluated(frame, expression), frame["seed"], statistic)
    return each, set(frame.attrs.get("seeds", frame["seed"]))
