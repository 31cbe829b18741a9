"""What `make dist`, `make wheel` and `make deb` pack of the last commit."""
import functools
import re
import shutil
import subprocess
import tarfile
import zipfile
from email.parser import Parser
from pathlib import Path

import pytest

ROOT = Path(__file__).resolve().parents[2]
DEBIAN_PYTHON = "/usr/bin/python3"
MODULES = ("pip", "setuptools", "wheel", "venv", "ensurepip", "pandas")
HOMEPAGE = "https://example.org/srm_lab"
SCENARIO = ROOT / "examples/chain-of-five-one-loss.toml"


@pytest.fixture(scope="module")
def pack(program, tmp_path_factory):
    """Makes one of the targets, of a program that is not built anew; they pack a commit, so this needs a repository."""
    if not (ROOT / ".git").exists():
        pytest.skip("this is no repository of git")
    folder = tmp_path_factory.mktemp("packed")
    copy = shutil.copy(program, folder / "srm_lab")

    @functools.cache
    def make(target, *words, place=folder):
        done = subprocess.run(["make", "-s", "-C", ROOT, "-o", copy, f"PROGRAM={copy}", f"PACKED={place}", target, *words],
                              capture_output=True, text=True, check=False)
        assert done.returncode == 0, done.stderr
        return Path(done.stdout.split()[-1])

    return make


@pytest.fixture
def version(program):
    """The program's version."""
    return subprocess.run([program, "--version"], capture_output=True, text=True, check=True).stdout.split()[1]


def needs(*programs):
    """Skips a test where a program is not there."""
    for name in programs:
        if shutil.which(name) is None:
            pytest.skip(f"no {name}")


def test_what_is_packed(pack, version, tmp_path):
    path = pack("dist")
    assert re.fullmatch(rf"srm_lab-{re.escape(version)}(\+[0-9a-f]+)?\.tar\.gz", path.name)
    with tarfile.open(path) as archive:
        names = {name.partition("/")[2] for name in archive.getnames()}
    assert {"bin/srm_lab", "LICENSE-MIT", "LICENSE-APACHE", "NOTICES.md", "CHANGELOG.md", "CITATION.cff", "Makefile",
            "docs/TUTORIAL.md", "examples/two-nodes.toml", "python/pyproject.toml", "python/src/srm_lab/cli.py",
            "experiments/check_tutorial.py", "experiments/packages.txt", "share/man/man1/srm_lab.1",
            "share/man/man1/srm-scenarios.1", "share/man/man5/srm_lab.5", "share/srm_lab/scenario.schema.json"} <= names
    assert not [name for name in names if name.startswith(("crates", "tests", "packaging", "python/tests"))]
    assert pack("dist", place=tmp_path / "again").read_bytes() == path.read_bytes()


def test_tag_that_is_not_the_version_is_refused(pack):
    with pytest.raises(AssertionError, match="this commit is tagged v9.9.9, and the program says that it is"):
        pack("dist", "TAG=v9.9.9")


def test_what_the_packed_folder_says_is_there(pack):
    folder = Path(str(pack("dist")).removesuffix(".tar.gz"))
    makefiles = (folder / "Makefile").read_text() + (folder / "experiments/targets.mk").read_text()
    targets = set(re.findall(r"^([a-z0-9-]+):", makefiles, re.MULTILINE))
    text = re.sub("```.*?```", "", (folder / "README.md").read_text(), flags=re.DOTALL)
    named = set(re.findall(r"\bmake ([a-z0-9-]+)", "".join(re.findall(r"`[^`]+`", text))))
    assert "experiments-packages" in named and named <= targets
    for path in re.findall(r"`((?:docs|examples|experiments|bin|python)/[\w./-]+|[A-Z]+[-A-Z]*(?:\.md|\.cff)?)`", text):
        assert path == "D3_JS" or (folder / path).exists(), path
    listed = subprocess.run(["make", "-s", "-C", folder], capture_output=True, text=True, check=True).stdout
    assert max(map(len, listed.splitlines())) <= 100
    assert set(re.findall(r"^make ([a-z0-9-]+) ", listed, re.MULTILINE)) <= targets


@pytest.mark.parametrize("arguments", ["", "--explain"])
def test_packed_run_explains_a_refusal(pack, arguments, tmp_path):
    folder = Path(str(pack("dist")).removesuffix(".tar.gz"))
    (tmp_path / "bad.toml").write_text("version = 6\n")
    done = subprocess.run(["make", "-s", "-C", folder, "run", f"SCENARIO={tmp_path}/bad.toml", f"ARGUMENTS={arguments}"],
                          capture_output=True, text=True, check=False)
    assert "version is a whole number from 1 to 5" in done.stderr


def test_notices_name_each_library_of_the_program():
    lines = (line.split("#")[0].partition(":") for line in (ROOT / "crates.txt").read_text().splitlines())
    below = {name.strip(): libraries.split() for name, _, libraries in lines if name.strip()}
    crates, linked = ["srm_lab"], set()
    for name in crates:
        linked |= set(below[name]) - set(below)
        crates += [other for other in below[name] if other in below and other not in crates]
    assert {"toml", "rayon", "logbook"} <= linked
    assert sorted(linked - set(re.findall(r"`(\w+)`", (ROOT / "NOTICES.md").read_text()))) == []


@pytest.fixture
def wheel(pack):
    """The wheel."""
    script = f"import importlib.util; print(*(one for one in {MODULES} if importlib.util.find_spec(one) is None))"
    absent = subprocess.run([DEBIAN_PYTHON, "-c", script], capture_output=True, text=True, check=True).stdout.strip()
    return pytest.skip(f"Debian's Python has no {absent}") if absent else \
        pack("wheel", f"HOMEPAGE={HOMEPAGE}")


def test_wheel_is_for_the_systems_that_have_the_c_library(wheel, version, program):
    symbols = subprocess.run(["objdump", "-T", program], capture_output=True, text=True, check=True).stdout
    newest = max(int(minor) for minor in re.findall(r"GLIBC_2\.(\d+)", symbols))
    assert re.fullmatch(rf"srm_lab-{re.escape(version)}(\+[0-9a-f]+)?-py3-none-manylinux_2_{newest}_x86_64\.whl", wheel.name)
    needed = subprocess.run(["objdump", "-p", program], capture_output=True, text=True, check=True).stdout
    assert re.findall(r"NEEDED +(\S+)", needed) == ["libc.so.6"]
    with zipfile.ZipFile(wheel) as archive:
        names = archive.namelist()
    assert [name.rpartition("/")[2] for name in names if re.search(".dist-info/(LICENSE|NOTICES)", name)] == [
        "LICENSE-APACHE", "LICENSE-MIT", "NOTICES.md"]


def test_wheel_has_the_documents(wheel, pack):
    share = Path(str(pack("dist")).removesuffix(".tar.gz")) / "share"
    with zipfile.ZipFile(wheel) as archive:
        found = {name.partition(".data/data/share/")[2] for name in archive.namelist() if ".data/data/share/" in name}
    assert {"doc/srm_lab/docs/FORMATS.md", "doc/srm_lab/README.md", "doc/srm_lab/examples/two-nodes.toml"} <= found
    assert found == {str(path.relative_to(share)) for path in share.rglob("*") if path.is_file()}


def test_wheel_says_what_it_is(wheel, version):
    with zipfile.ZipFile(wheel) as archive:
        (name,) = [name for name in archive.namelist() if name.endswith(".dist-info/METADATA")]
        told = Parser().parsestr(archive.read(name).decode())
    assert told["Version"].partition("+")[0] == version and "verified simulator" in told["Summary"]
    assert told["License"] == "MIT OR Apache-2.0" and told["Author"] == "The srm_lab developers"
    assert {"License :: OSI Approved :: MIT License", "License :: OSI Approved :: Apache Software License",
            "Operating System :: POSIX :: Linux"} <= set(told.get_all("Classifier"))
    assert told.get_all("Project-URL") == [f"Homepage, {HOMEPAGE}", "Protocol, https://doi.org/10.1109/90.650139"]
    assert told["Description-Content-Type"] == "text/markdown"
    assert told.get_payload() == (ROOT / "packaging/packed.md").read_text()


def test_wheel_is_all_that_has_to_be_installed(wheel, tmp_path, monkeypatch):
    """In an environment of its own, with Debian's pandas and nothing of ours on a path."""
    place = tmp_path / "environment"
    subprocess.run([DEBIAN_PYTHON, "-m", "venv", "--system-site-packages", place], check=True)
    for name in ("SRM_LAB", "PYTHONPATH"):
        monkeypatch.delenv(name, raising=False)
    monkeypatch.setenv("PATH", "/usr/bin:/bin")
    monkeypatch.setenv("PIP_CONFIG_FILE", "/dev/null")

    def run(*words, **more):
        return subprocess.run([place / "bin" / words[0], *words[1:]], capture_output=True, text=True, check=True, cwd=tmp_path,
                              **more).stdout

    run("pip", "install", "--quiet", "--no-index", "--find-links", wheel.parent, "srm_lab")
    assert run("srm_lab", "--show", "losses", input=SCENARIO.read_text()) == \
        SCENARIO.with_name("chain-of-five-one-loss.losses.csv").read_text()
    assert "role = \"sender\"" in run("srm-scenarios", "chain", "--size", "3")
    script = (f"import srm_lab; print(srm_lab.__file__); given = srm_lab.load_scenario({str(SCENARIO)!r}); "
              "print(len(srm_lab.run(given, cache=None).losses))")
    where, losses = run("python", "-c", script).split()
    assert where.startswith(str(place)) and int(losses) == 3
    assert {path.name for path in (place / "share/man").rglob("*.?")} == {"srm_lab.1", "srm-scenarios.1", "srm_lab.5"}
    run("pip", "uninstall", "--quiet", "--yes", "srm_lab")
    assert not (place / "bin/srm_lab").exists()


def test_debian_package(pack):
    needs("dpkg-buildpackage", "dh_python3", "lintian")
    package = pack("deb", f"HOMEPAGE={HOMEPAGE}")
    linked = subprocess.run(["dpkg", "--field", package, "Homepage"], capture_output=True, text=True, check=True).stdout
    assert linked == f"{HOMEPAGE}\n"
    listed = subprocess.run(["dpkg", "-c", package], capture_output=True, text=True, check=True).stdout
    names = {line.split()[5].removeprefix("./") for line in listed.splitlines()}
    assert {"usr/bin/srm_lab", "usr/bin/srm-scenarios", "usr/lib/python3/dist-packages/srm_lab/cli.py",
            "usr/share/man/man1/srm_lab.1.gz", "usr/share/man/man1/srm-scenarios.1.gz",
            "usr/share/man/man5/srm_lab.5.gz", "usr/share/doc/srm-lab/copyright", "usr/share/doc/srm-lab/NOTICES.md",
            "usr/share/doc/srm-lab/docs/FORMATS.md", "usr/share/doc/srm-lab/examples/two-nodes.toml",
            "usr/share/bash-completion/completions/srm-scenarios", "usr/share/zsh/site-functions/_srm-scenarios",
            "usr/share/fish/vendor_completions.d/srm-scenarios.fish"} <= names
    told = subprocess.run(["lintian", "--fail-on", "error,warning", package], capture_output=True, text=True, check=False)
    assert told.returncode == 0, told.stdout
