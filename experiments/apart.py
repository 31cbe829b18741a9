"""Jobs of a workflow in processes of their own, which are forked: what a job needs they have loaded already."""
import os
import signal
import sys
import traceback
from collections.abc import Callable, Sequence


def do(work: Callable[..., int | None], words: Sequence[str], log: str) -> None:
    """Does a job, whose standard error goes to a log; ChildProcessError where it fails, or gives another status than 0."""
    child = os.fork()
    if child == 0:
        signal.signal(signal.SIGTERM, signal.SIG_DFL)  # Snakemake waits for jobs where it is told to end
        status = 1
        try:
            status = _status(work, words, log)
        finally:
            os._exit(status)
    if os.waitpid(child, 0)[1]:
        raise ChildProcessError(f"{log} says why")


def _status(work: Callable[..., int | None], words: Sequence[str], log: str) -> int:
    """What a job gives; the streams that were there stay alone, since another thread may have been writing to them."""
    with open(log, "w", encoding="utf-8") as sys.stderr:
        sys.stdout = sys.stderr
        for name in [name for name, module in sys.modules.items() if module is None]:
            del sys.modules[name]  # snakemake_alone.py kept it from being loaded
        try:
            return work(*words) or 0
        except BaseException:  # whatever it is, this process ends here
            traceback.print_exc()
            return 1
