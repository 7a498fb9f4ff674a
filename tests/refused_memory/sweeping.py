"""Runs of a program of which one call for memory is refused: each in turn, to the end of the calls."""

import os
import tempfile
from pathlib import Path

# More than the calls of any run that is swept.
MOST = 5000


class Refusal:
    """The settings of runs that are refused one call, and whether that call was made."""

    def __init__(self, library):
        self.library = library
        self.folder = tempfile.TemporaryDirectory()
        self.note = Path(self.folder.name) / "refused"

    def settings(self, number):
        self.note.unlink(missing_ok=True)
        return dict(os.environ, REFUSED_CALL=str(number), REFUSED_NOTE=str(self.note), LD_PRELOAD=self.library)

    def was_made(self):
        return self.note.exists()

    def close(self):
        self.folder.cleanup()


def sweep(library, run):
    """Calls `run' with the settings for each number of a call, until a run has made no such call. Yields each number, and what the run
    that was refused it came to."""
    refusal = Refusal(library)
    try:
        for number in range(1, MOST + 1):
            outcome = run(refusal.settings(number))
            if not refusal.was_made():
                return
            yield number, outcome
    finally:
        refusal.close()
    yield MOST + 1, None
