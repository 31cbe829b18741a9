"""The Debian package and the wheel, installed in a root of Debian 12 that has nothing else; `make test-clean-root`.

It takes some minutes, needs to be root, debootstrap and Debian's mirror, and is skipped without one of these.
"""
import os
import shutil
import subprocess
from pathlib import Path

import pytest

ROOT = Path(__file__).resolve().parents[2]
MIRROR = os.environ.get("MIRROR", "http://deb.debian.org/debian")
# what these tests need besides, and of the package's tests those that need more than the package
NEEDED = ("python3-pytest", "python3-yaml", "python3-venv")
OTHERS = ("clean_root", "make", "one_node", "packaging", "packed", "page_browser", "slurm", "workflow")
pytestmark = pytest.mark.clean_root


def call(*words, **more):
    """Runs a command, and gives what it writes."""
    done = subprocess.run([*map(str, words)], capture_output=True, text=True, check=False, **more)
    assert done.returncode == 0, f"{words}: {done.stdout[-3000:]}{done.stderr[-3000:]}"
    return done.stdout


@pytest.fixture(scope="module")
def packed(program, tmp_path_factory):
    """The folder with the Debian package and the wheel."""
    for name in ("debootstrap", "dpkg-buildpackage", "dh_python3"):
        if shutil.which(name) is None:
            pytest.skip(f"no {name}")
    if os.geteuid():
        pytest.skip("only root can make a root")
    place = tmp_path_factory.mktemp("packed")
    copy = shutil.copy(program, place / "srm_lab")
    for target in ("deb", "wheel"):
        call("make", "-s", "-C", ROOT, "-o", copy, f"PROGRAM={copy}", f"PACKED={place}", target)
    return place


@pytest.fixture(scope="module")
def root(packed, tmp_path_factory):
    """Runs a command in the root, with nothing of this system's environment."""
    place = tmp_path_factory.mktemp("root")
    call("mount", "-t", "tmpfs", "-o", "mode=755", "root", place)  # on a disk, packages wait for it longer than they take
    try:
        yield of_debian(place, packed)
    finally:
        call("umount", place)


def of_debian(place, packed):
    """Makes a root in a folder, with the packed files and the tests in it, and gives what runs a command there."""
    made = subprocess.run(["debootstrap", "--variant=minbase", "bookworm", place, MIRROR], capture_output=True, text=True,
                          check=False)
    if made.returncode:
        pytest.skip(f"debootstrap made no root from {MIRROR}: {made.stdout[-500:]}")
    clean = {"PATH": "/usr/sbin:/usr/bin:/sbin:/bin", "HOME": "/root", "LC_ALL": "C.UTF-8", "DEBIAN_FRONTEND": "noninteractive",
             **{name: os.environ[name] for name in ("http_proxy", "https_proxy") if name in os.environ}}

    def run(*words, **more):
        return call("chroot", place, *words, env=clean, **more)

    (place / "try").mkdir()
    for path in [*packed.glob("*.deb"), *packed.glob("*.whl")]:
        shutil.copy(path, place / "try")
    with subprocess.Popen(["git", "-C", ROOT, "archive", "HEAD"], stdout=subprocess.PIPE) as archive:
        call("tar", "-x", "-C", place / "try", stdin=archive.stdout)
    shutil.rmtree(place / "try/python/src")
    run("apt-get", "install", "--quiet", "--yes", "--no-install-recommends", *NEEDED)
    return run


def install(root):
    """Installs the Debian package, with what it depends on and recommends."""
    root("sh", "-c", "apt-get install --quiet --yes --no-install-recommends /try/srm-lab_*.deb node-d3")


def check_commands(root, folder):
    """Both commands of a folder, on an example and on each other."""
    name = "/try/examples/chain-of-five-one-loss"
    root("sh", "-c", f"{folder}/srm_lab --show losses < {name}.toml | cmp - {name}.losses.csv")
    root("sh", "-c", f"{folder}/srm-scenarios star --size 9 --drop-link adjacent > /tmp/star.toml && "
         f"{folder}/srm_lab --check < /tmp/star.toml && {folder}/srm-scenarios page /tmp/star.toml > /tmp/star.html")
    assert "<title>star: " in root("cat", "/tmp/star.html")


def check_tests(root, python):
    """The package's tests, of what is installed."""
    others = [f"--ignore=tests/test_{name}.py" for name in OTHERS]
    told = root("env", "-C", "/try/python", f"SRM_LAB={Path(python).parent}/srm_lab", python, "-m", "pytest", "-q", "-p",
                "no:cacheprovider", "-o", "pythonpath=../experiments", *others)
    assert " passed" in told and "failed" not in told
    assert root("env", "-C", "/", python, "-c", "import srm_lab; print(srm_lab.__file__)").startswith(
        "/usr/lib/python3/" if python.startswith("/usr") else "/try/environment/")


def test_debian_package(root):
    install(root)
    check_commands(root, "/usr/bin")
    check_tests(root, "/usr/bin/python3")


def test_wheel(root):
    """In an environment that has Debian's Python packages, but no longer the Debian package."""
    install(root)
    root("apt-get", "remove", "--quiet", "--yes", "srm-lab")
    assert root("sh", "-c", "ls -d /usr/bin/srm* /usr/lib/python3/dist-packages/srm* || true") == ""
    root("python3", "-m", "venv", "--system-site-packages", "/try/environment")
    root("/try/environment/bin/pip", "install", "--no-index", "--find-links", "/try", "srm_lab")
    check_commands(root, "/try/environment/bin")
    check_tests(root, "/try/environment/bin/python3")
