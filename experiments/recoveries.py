"""The table of an experiment, as figures and the report take it."""
import pandas


def read(path: str) -> pandas.DataFrame:
    """A table of an experiment, without the operations that somebody lacked to the end, and those without a delay.

    How many these are, and how many losses ended with a leave, is in `attrs`, and goes into the figure.
    """
    table = pandas.read_csv(path)
    wanted = (table["open"] == 0) & table["last_delay"].notna()
    kept = table[wanted].copy()
    kept["ratio"] = kept["last_delay"] / kept["last_round_trip"]
    kept.attrs = {"rows": len(table), "open": int((table["open"] > 0).sum()),
                  "gone": int(((table["open"] == 0) & table["last_delay"].isna()).sum()),
                  "left": int(table["left"].sum())}
    return kept
