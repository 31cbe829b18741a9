"""What each kind of figure needs; apart from figures.py, so that a configuration is checked without loading what draws."""
from srm_lab.experiment import Needs

NEEDS = {
    "over_session_size": Needs(2), "lines": Needs(4), "requests_in_a_star": Needs(2, ("size", "c1", "c2")),
    "chain_of_sure_timers": Needs(1, ("drop_link", "delay", "c1", "d1")),
    "requests_against_delay": Needs(2, ("size", "drop_link", "c1", "c2")),
    "over_rounds": Needs(2, ("adaptive", "rounds")), "adapted_over_size": Needs(2, ("adaptive", "rounds", "members")),
    "over_spacing": Needs(2, ("size", "adaptive", "rounds", "every")), "local": Needs(2, ("size", "scope", "steps")),
}
