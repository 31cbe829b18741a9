"""TOML 1.1: what it has besides TOML 1.0 is read, and what is in neither is refused, as the program does."""
import subprocess
import tomllib

import pytest

from srm_lab import ScenarioError, read_scenario
from srm_lab.toml_text import as_toml_1_0, read_toml

TOP = ("version = 1\nuntil = 100\nc1 = 2000\nc2 = 0\nd1 = 1000\nd2 = 0\nnodes = 2\n"
       "link = [{ a = 0, b = 1, delay = 3 }]\n")
ONE = '{ node = 0, role = "sender", stream = 1 }'
# a member, and what TOML 1.1 and the format say of it
MEMBERS = {
    "line breaks, comments and a last comma": ('{\n node = 0\n, # why\n role = "sender",\n\n stream = 1,\n}', None),
    "line breaks of two letters": ('{\r\n node = 0, role = "sender", stream = 1\r\n }', None),
    "a line break within an array": ('{ node = 0, role = "sender", stream = 1, }, # last\n', None),
    "an escape of two digits": ('{ node = 0, role = "\\x73ender", stream = 1 }', None),
    "an escape of two digits in a key": ('{ "n\\x6fde" = 0, role = "sender", stream = 1 }', None),
    "a string of many lines": ('{ node = 0, role = """send\\\n  er""", stream = 1,\n}', None),
    "a bracket in a string": ('{ node = 0, role = "sen{der", stream = 1,\n}', "member"),
    "a comment in a string": ('{ node = 0, role = "sen#der", # }\n stream = 1 }', "member"),
    "the escape of ESC": ('{ node = 0, role = "\\e", stream = 1 }', "member"),
    "a backslash and no escape": ('{ node = 0, role = "\\\\x73ender", stream = 1,\n}', "member"),
    "a literal string": ("{ node = 0, role = '\\x73ender', stream = 1,\n}", "member"),
    "a time without seconds": ('{ node = 07:32, role = "sender", stream = 1 }', "member"),
    "a date and time without seconds": ('{ node = 1979-05-27T07:32-07:00, role = "sender", stream = 1 }', "member"),
    "no keys": ("{\n}", "member"),
    "a line break before =": ('{ node\n = 0, role = "sender", stream = 1 }', "no TOML"),
    "a line break after =": ('{ node =\n 0, role = "sender", stream = 1 }', "no TOML"),
    "a line break in place of a comma": ('{ node = 0\n role = "sender", stream = 1 }', "no TOML"),
    "a comma alone": ("{,}", "no TOML"),
    "two commas at the end": ('{ node = 0, role = "sender", stream = 1,, }', "no TOML"),
    "an escape of one digit": ('{ node = 0, role = "\\x7", stream = 1 }', "no TOML"),
    "a control character in a comment": ('{ # \x01\n node = 0, role = "sender", stream = 1 }', "no TOML"),
    "half a line break": ('{\r node = 0, role = "sender", stream = 1 }', "no TOML"),
    "a string that does not end": ('{ node = 0, role = "sender\n, stream = " }', "no TOML"),
}
TEXTS = {name: (f"{TOP}member = [{member}]\n", answer) for name, (member, answer) in MEMBERS.items()} | {
    "a number of more than 64 bits": (TOP.replace("= 100", "= 9223372036854775808"), "no TOML"),
    "a number of too many digits": (f"{TOP}ink = {'9' * 5000}\n", "no TOML"),
    "a letter that is none of a key's": (f"{TOP}\u00e9 = 1\n", "no TOML"),
    "arrays in arrays": (f"{TOP}ink = {'[' * 5000}\n", "no TOML"),
}


def answer_of(text):
    try:
        read_scenario(text)
    except ScenarioError as fault:
        return "no TOML" if fault.part is None else fault.part
    return None


@pytest.mark.parametrize("name", TEXTS)
def test_text_is_read_or_refused_as_toml_1_1(name):
    text, answer = TEXTS[name]
    assert answer_of(text) == answer


@pytest.mark.parametrize("name", TEXTS)
def test_program_says_the_same(name, program):
    text, answer = TEXTS[name]
    done = subprocess.run([program], input=text.encode(), capture_output=True, check=False)
    line = {None: "", "no TOML": "refused: not-toml\n", "member": "refused: bad-key member 0\n"}[answer]
    assert done.stderr.decode() == line


def test_toml_1_0_stays_as_it_is():
    text = f'{TOP}# a {{ comment\nmember = [\n  {ONE}, # one\n]\n"a.b" = \'\'\'\n{{\n\'\'\'\nat = 07:32:00\n'
    assert as_toml_1_0(text) == text and read_toml(text) == tomllib.loads(text)


def test_fault_is_told_at_its_place():
    with pytest.raises(ValueError, match=r"\(at line 4, column 6\)"):
        read_toml("a = {\n b = 1, # one\n # two\n c = ,\n}\n")
