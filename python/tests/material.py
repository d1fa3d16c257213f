"""Where the tests' material lies: the streams and vectors in crates/, and the files that the model makes."""

import atexit
import functools
import shutil
import subprocess
import tempfile
from pathlib import Path

ROOT = Path(__file__).resolve().parents[2]
STREAMS = ROOT / "crates" / "test_streams"


def printed(program: str) -> str:
    """What a test program of crates/ must print."""
    return (ROOT / "crates" / program / "stdout").read_text(encoding="utf-8")


def _made(command: str) -> Path:
    """A folder with what a command of the model makes: made once, gone at the end."""
    room = Path(tempfile.mkdtemp())
    atexit.register(shutil.rmtree, room)
    model = ["cargo", "run", "--offline", "--quiet", "--release", "--manifest-path", str(ROOT / "model" / "Cargo.toml")]
    subprocess.run([*model, "--", command, str(room)], check=True)
    return room


@functools.cache
def journals() -> Path:
    """The model's journals."""
    return _made("journals")


@functools.cache
def season() -> Path:
    """The model's runs of the program season: for each RUN.args the names of its journals, and what it prints."""
    return _made("season")
