"""The standard streams, of which some may be closed where a program starts."""

import os
import sys


def open_closed() -> None:
    """Has those that are closed lead nowhere. Else what is opened next would be taken for them, and what is said on
    standard error would land among what is printed."""
    for number in range(3):
        try:
            os.fstat(number)
        except OSError:
            os.set_inheritable(os.open(os.devnull, os.O_RDWR), True)
    if sys.stdout is None:
        sys.stdout = open(1, "w", encoding="utf-8", closefd=False)
    if sys.stderr is None:
        sys.stderr = open(2, "w", encoding="utf-8", closefd=False)
