"""What the tests of the desk share: what is as it should be is counted, and the command is run."""
import io
import json
import pathlib
import subprocess
import sys
from typing import Any, Tuple

ROOT = pathlib.Path(__file__).resolve().parent.parent.parent
COMMAND = ROOT / "tools" / "negyvosal"
sys.path[:0] = [str(ROOT), str(ROOT / "bindings" / "python")]

from desk.command import main  # noqa: E402

passed = 0


def expect(what: str, is_: Any, should: Any) -> None:
    """Counts what is as it should be; else tells it and ends."""
    global passed
    if is_ != should:
        sys.exit(f"desk: {what}: it is\n{is_}\nand not\n{should}")
    passed += 1


def called(*words: Any) -> Tuple[int, bytes]:
    """Runs the command in this process: its exit status and what it prints."""
    kept = sys.stdout, sys.stderr
    sys.stdout = io.TextIOWrapper(io.BytesIO(), encoding="utf-8")
    sys.stderr = io.StringIO()
    try:
        status = main([str(word) for word in words])
    except SystemExit as ended:
        status = ended.code or 0
    finally:
        sys.stdout.flush()
        printed = sys.stdout.buffer.getvalue()
        said = sys.stderr.getvalue()
        sys.stdout, sys.stderr = kept
    expect(f"what {words} says of trouble: {said}", bool(said) and "no Graphviz" not in said, status == 2)
    return status, printed


def run(*words: Any, status: int = 0) -> str:
    """What the command prints, with that exit status."""
    ended, printed = called(*words)
    expect(f"the status of {words}: {printed.decode()}", ended, status)
    return printed.decode()


def said(*words: Any, status: int = 0) -> Any:
    """The same as JSON."""
    return json.loads(run(*words, "--json", status=status))


def spawned(*words: Any, **how: Any) -> subprocess.CompletedProcess:
    """The command run as a process of its own."""
    return subprocess.run([COMMAND, *words], cwd=ROOT, stdin=subprocess.DEVNULL, stderr=subprocess.PIPE, check=False,
                          **{"stdout": subprocess.PIPE, **how})
