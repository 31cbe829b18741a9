"""Jobs of a workflow in processes of their own."""
import sys

import apart
import pytest


def fail(word):
    sys.stderr.write(f"{word}\n")
    raise ValueError("nothing")


@pytest.mark.parametrize("work, told", [
    (lambda word: sys.stderr.write(f"{word}\n") and 3, "one\n"), (fail, "one\nTraceback")])
def test_job_that_fails_is_told_of_with_its_log(work, told, tmp_path):
    with pytest.raises(ChildProcessError, match="job.log says why"):
        apart.do(work, ["one"], str(tmp_path / "job.log"))
    assert (tmp_path / "job.log").read_text().startswith(told)


def test_log_of_a_job_that_ends_well_is_its_own(tmp_path, capfd):
    apart.do(lambda word: print(word), ["one"], str(tmp_path / "job.log"))
    assert (tmp_path / "job.log").read_text() == "one\n" and capfd.readouterr() == ("", "")


def test_job_finds_what_snakemake_was_kept_from_loading(tmp_path, monkeypatch):
    monkeypatch.setitem(sys.modules, "colorsys", None)

    def load(word):
        import colorsys
        print(colorsys.__name__)

    apart.do(load, ["one"], str(tmp_path / "job.log"))
    assert (tmp_path / "job.log").read_text() == "colorsys\n"
