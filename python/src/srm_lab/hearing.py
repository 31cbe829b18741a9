"""How many hear what a recovery takes: what local recovery is to keep low."""
from collections.abc import Mapping
from typing import TYPE_CHECKING, Union

import pandas

from .errors import ScenarioError, spelled

if TYPE_CHECKING:
    from .runs import Runs

NAME = ["source", "page", "number"]
HEARD = {"ask": "requests_heard", "answer": "repairs_heard"}


@spelled
def heard(given: "Union[Runs, Mapping[str, pandas.DataFrame]]") -> pandas.DataFrame:
    """How many members heard the requests, and the repairs, for each lost operation.

    `given` are runs, or what `sweep` gives, with the tables `operations` and `scopes`. The answer is the table of
    operations with `requests_heard` and `repairs_heard` besides, in which a member counts once for each packet that came
    to it: `summarise(heard(runs), "repairs_heard / losers")` are the hearers of repairs for each loser.
    """
    tables = getattr(given, "tables", given)
    if not isinstance(tables, Mapping):
        raise TypeError(f"a {type(given).__name__} was given, and has to be runs, or the tables of a sweep")
    for name in ("operations", "scopes"):
        if name not in tables:
            raise ScenarioError(f"the table {name!r} was not asked for: there are {', '.join(tables)}")
    operations, scopes = tables["operations"], tables["scopes"]
    own = [*operations.columns[:operations.columns.get_loc("source")]]  # a sweep's parameters, and the seed
    refs = operations[NAME].astype(str).agg("/".join, axis="columns") if len(operations) else pandas.Series(dtype=str)
    sums = scopes.groupby([*own, "ref", "cause"], dropna=False)["heard"].sum().unstack("cause", fill_value=0)
    sums = sums.reindex(columns=[*HEARD], fill_value=0).rename(columns=HEARD).astype("Int64")
    found = operations.assign(ref=refs).merge(sums, "left", left_on=[*own, "ref"], right_index=True)
    found = found.drop(columns="ref").fillna({column: 0 for column in HEARD.values()})
    found.attrs = dict(operations.attrs)
    return found
