"""The two sides of the comparison: how their programs are started and fed, and what they print."""

import subprocess
import time
from contextlib import suppress
from dataclasses import dataclass
from pathlib import Path
from tempfile import TemporaryFile
from threading import Timer

# Our programs, and what the second program calls them.
PROGRAMS = {"dtprobe": "probe", "dtlist": "list", "dtmake": "make"}
# Seconds after which a program is taken to have no end, and is killed.
PATIENCE = 120
# Seconds between two pieces of an input.
PAUSE = 0.002


@dataclass(frozen=True)
class Side:
    """One implementation: the words that start each of its programs."""

    words: dict[str, list[str]]

    def printed(self, program: str, pieces: list[bytes]) -> bytes:
        """All that a program prints, fed piece after piece; an exit status other than 0 counts as printed."""
        # Into a file: dtprobe prints in small portions, and in a pipe each of them would wake the reader.
        with TemporaryFile() as output:
            # Without a buffer, what a program no longer takes is not written again when its input is closed.
            process = subprocess.Popen(self.words[program], bufsize=0, stdin=subprocess.PIPE, stdout=output,
                                       stderr=subprocess.STDOUT)
            limit = Timer(PATIENCE, process.kill)
            limit.start()
            for piece in pieces[:-1]:
                feed(process, piece)
            process.communicate(pieces[-1])
            limit.cancel()
            output.seek(0)
            printed = output.read()
        return printed if process.returncode == 0 else printed + b"(exit status %d)\n" % process.returncode


def feed(process: subprocess.Popen[bytes], piece: bytes) -> None:
    """Writes a piece and waits, so that the program's read ends with it."""
    # A program may stop reading early, when it has read more than its limit.
    with suppress(BrokenPipeError):
        process.stdin.write(piece)
    time.sleep(PAUSE)


def our_side(repository: Path) -> Side:
    """Our programs, by the words that `run` gives, which builds them where they are missing."""
    return Side({program: words_from_run(repository, program) for program in PROGRAMS})


def words_from_run(repository: Path, program: str) -> list[str]:
    command = [repository / "run", "--words", program]
    return subprocess.run(command, stdout=subprocess.PIPE, check=True).stdout.decode().splitlines()


def second_side(repository: Path) -> Side:
    """The second program, built first; cargo does nothing where it is up to date."""
    project = repository / "tests" / "second"
    command = ["cargo", "build", "--release", "--quiet", "--manifest-path", project / "Cargo.toml"]
    subprocess.run(command, check=True)
    program = str(project / "target" / "release" / "second")
    return Side({ours: [program, name] for ours, name in PROGRAMS.items()})
