"""A keyword that a function or a verb does not take is told in a sentence, with the one that was probably meant."""
import inspect

import pytest

import srm_lab
from srm_lab import scenario, sweep
from srm_lab.parts import Member


def works():
    """The functions that the package names, how its classes are made, their verbs, and what gives a scenario."""
    named = [getattr(srm_lab, name) for name in srm_lab.__all__]
    kinds = [Member, *(one for one in named if inspect.isclass(one) and not issubclass(one, Exception))]
    verbs = [verb for kind in (scenario.Scenario, srm_lab.Tree) for name, verb in vars(kind).items()
             if inspect.isfunction(verb) and verb.__annotations__.get("return") == kind.__name__]
    makers = [one for one in vars(scenario).values() if inspect.isfunction(one) and
              one.__annotations__.get("return") is scenario.Scenario and not one.__name__.startswith("_")]
    return [*(one for one in named if inspect.isfunction(one)), *(vars(kind)["__init__"] for kind in kinds), *verbs, *makers,
            srm_lab.Runs.summary, srm_lab.Runs.save]


def exchanged(name):
    """A word with each two neighbouring letters of it exchanged."""
    return {name[:at] + name[at + 1] + name[at] + name[at + 2:] for at in range(len(name) - 1)} - {name}


@pytest.mark.parametrize("work", works(), ids=lambda work: work.__qualname__)
def test_two_letters_exchanged_in_a_keyword(work):
    taken = inspect.signature(work).parameters
    names = [name for name, one in taken.items() if one.kind is one.POSITIONAL_OR_KEYWORD and name != "self"]
    if any(one.kind is one.VAR_KEYWORD for one in taken.values()):
        return  # what they take is told by test_keyword_is_told
    for name in names:
        for wrong in exchanged(name) - {*names}:
            with pytest.raises(TypeError) as fault:
                work(*([None] if "self" in taken else []), **{wrong: 0})
            assert f"there is no keyword {wrong!r} (did you mean {name!r}?): there are {', '.join(names)}" in str(fault.value)


STAR = scenario.star(5, members=3)


@pytest.mark.parametrize("call, told", [
    (lambda: scenario.star(3, **{"delya": 3}),
     "star: there is no keyword 'delya' (did you mean 'delay'?): there are nodes, members, source, delay, seed"),
    (lambda: scenario.Scenario(tre=STAR.tree), "Scenario: there is no keyword 'tre' (did you mean 'tree'?)"),  # type: ignore
    (lambda: STAR.leave(1, at=3, **{"everybody": 1}), "leave: there is no keyword 'everybody': there are members, at, seed"),
    (lambda: STAR.member(4, jion=3), "Member: there is no keyword 'jion' (did you mean 'join'?)"),
    (lambda: sweep({"siez": [3]}, lambda size: STAR, program="true"),
     "does not fit the parameters: there is no keyword 'siez' (did you mean 'size'?)"),
    # what Python itself says of other calls stays
    (lambda: scenario.star(), "star() missing 1 required positional argument: 'nodes'"),  # type: ignore
    (lambda: scenario.star(3, "all", "first", 1, 1, 1), "star() takes from 1 to 5 positional arguments"),  # type: ignore
])
def test_keyword_is_told(call, told):
    with pytest.raises(TypeError) as fault:
        call()
    assert told in str(fault.value)
