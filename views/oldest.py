"""The oldest Python that runs the views. This file and those that import it first are read by older ones too."""

import os
import sys

OLDEST = (3, 9)


def check() -> None:
    """Ends with one line and 125 if this Python is too old."""
    if sys.version_info[:2] < OLDEST:
        said = "pmu: this is Python %d.%d, and the views want %d.%d or a newer one\n" % (sys.version_info[:2] + OLDEST)
        os.write(2, said.encode())
        os._exit(125)
