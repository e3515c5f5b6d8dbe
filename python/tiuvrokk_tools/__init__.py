"""The programs amload, amdump, amcli and amdraw, each a module here, and what they have in common. Python 3.9 is needed."""

import os

TOP = os.path.dirname(os.path.dirname(os.path.dirname(os.path.realpath(__file__))))
"""The folder that has `amserve`, VERSION and this package's folder, in a checkout as where it is installed."""


def version() -> str:
    """The version of all programs."""
    with open(os.path.join(TOP, "VERSION"), encoding="ascii") as file:
        return file.read().strip()
