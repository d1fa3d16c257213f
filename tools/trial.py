"""A changed copy of one crate, checked over what is proved below it."""

import os
import shutil
import subprocess
import tempfile
from pathlib import Path

from crates import depends_on, named
from edits import BadEdit, changed_files, judge_alone, must_fail_edits

PARTS = ("src", "specs", "proofs")


def kit():
    """The folder of the kit: RATTLE_HOME, or the one in which `rt` stands."""
    command = shutil.which("rt")
    if "RATTLE_HOME" not in os.environ and not command:
        raise SystemExit("rt is not to be found")
    return Path(os.environ.get("RATTLE_HOME") or Path(command).resolve().parent.parent)


def rattle():
    """The compiler, which `rt` calls too."""
    return str(kit() / "bin/rattle")


def proved(root, crate):
    """The folder where `rt` leaves a library that it has proved."""
    return Path(root) / "crates" / crate / "out/rlib"


def is_left_by_ci(root, crate):
    """Whether a library is as `rt ci` has proved it. Other commands of `rt` leave a stamp beside theirs, by which they see what has changed."""
    library, folder = proved(root, crate) / f"{crate}.rlib", Path(root) / "crates" / crate
    texts = [file for part in PARTS for file in [folder / part, *(folder / part).rglob("*")] if file.exists()]
    return library.exists() and not (proved(root, crate) / "stamp").exists() and max(file.stat().st_mtime for file in texts) < library.stat().st_mtime


def prove_below(root, crate):
    """Has what lies below a crate proved, where `rt ci` has not just done so."""
    if all(is_left_by_ci(root, other) for other in depends_on(root, crate)):
        return
    done = subprocess.run(["rt", "check", "--only", ""], cwd=Path(root) / "crates" / crate, stdin=subprocess.DEVNULL, stdout=subprocess.PIPE,
                          stderr=subprocess.STDOUT, text=True, errors="replace", check=False)
    if done.returncode != 0:
        raise SystemExit(f"{crate}: what lies below it is not proved\n{done.stdout}")


def words_for(root, crate):
    """What the compiler is told of a crate: its root file, the libraries that it names, and where those that these rest on are."""
    below = depends_on(root, crate)
    library = lambda name: proved(root, name) / f"{name}.rlib" if name in below else kit() / "rlibs" / f"{name}.rlib"
    is_program = (Path(root) / "crates" / crate / "src/main.rt").exists()
    words = ["--crate-name", crate, "src/main.rt" if is_program else "src/lib.rt"]
    for name in ["std"] + named(root)[crate]:
        words += ["--extern", f"{name}={library(name)}"]
    for folder in [kit() / "rlibs"] + [proved(root, other) for other in below]:
        words += ["-L", f"dependency={folder}"]
    words += ["--antt-project", str(kit() / "rattle/logic/antt-project.json"), "--logic-built", str(kit() / "logic_built")]
    return words + ["--jobs", str(min(4, os.cpu_count() or 1))]


class Trial:
    """The crate's sources, specs and proofs are copied. The libraries below it are the repository's own, as they are proved there. A check begins
    with what those before it in the same trial have proved."""

    def __init__(self, root, crate):
        self.root, self.crate = Path(root).resolve(), crate
        prove_below(self.root, crate)
        self.words = words_for(self.root, crate)
        self.room = Path(tempfile.mkdtemp(prefix=f"{crate}-"))
        self.folder = self.room / crate
        self.renew()

    def __enter__(self):
        return self

    def __exit__(self, *_):
        shutil.rmtree(self.room)

    def renew(self):
        """The crate as it is, with nothing changed."""
        shutil.rmtree(self.folder, ignore_errors=True)
        for part in PARTS:
            if (self.root / "crates" / self.crate / part).exists():
                shutil.copytree(self.root / "crates" / self.crate / part, self.folder / part)

    def check(self):
        """The status and the whole output of a check: 0 where the crate is proved."""
        done = subprocess.run([rattle(), "check", *self.words, "--incremental", str(self.room / "kept")], cwd=self.folder, stdin=subprocess.DEVNULL,
                              stdout=subprocess.PIPE, stderr=subprocess.STDOUT, text=True, errors="replace", check=False)
        return done.returncode, done.stdout

    def refusal(self):
        """The log of a check that refuses the crate."""
        status, log = self.check()
        if status != 1 or "\nlogic=not-proved" not in log:
            raise BadEdit("\n".join([f"{self.crate}: the check ended with {status}, and did not refuse the crate", *log.splitlines()[-5:]]))
        return log


def try_edit(root, crate, label):
    """What is amiss with an edit of must-fail/, tried alone."""
    edit = must_fail_edits(root, crate)[label]
    with Trial(root, crate) as trial:
        for place, text in changed_files(trial.folder, edit).items():
            (trial.folder / place).write_text(text, encoding="utf-8")
        return judge_alone(edit, trial.refusal())
