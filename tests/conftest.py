"""Lets pytest run the scripts of this folder, each as a test of its own: `pytest tests -k listen`. `./test` doesn't need it."""

import os
import subprocess
from pathlib import Path
from typing import Iterator, Optional

import pytest  # type: ignore[import]


class Script(pytest.File):  # type: ignore[misc]
    """A script, which is one test."""

    def collect(self) -> Iterator["Run"]:
        """The test of the script."""
        yield Run.from_parent(self, name=self.path.name)


class Run(pytest.Item):  # type: ignore[misc]
    """A script's run: it fails where its status isn't 0."""

    def runtest(self) -> None:
        """Runs the script, and shows what it says where it fails."""
        ran = subprocess.run([str(self.path)], stdin=subprocess.DEVNULL, stdout=subprocess.PIPE, stderr=subprocess.STDOUT, text=True, check=False)
        if ran.returncode:
            pytest.fail(f"{ran.stdout}\nstatus {ran.returncode}", pytrace=False)


def pytest_collect_file(file_path: Path, parent: pytest.Collector) -> Optional[Script]:
    """Takes each script of this folder."""
    if file_path.parent == Path(__file__).parent and file_path.suffix in ("", ".py") and os.access(file_path, os.X_OK):
        return Script.from_parent(parent, path=file_path)  # type: ignore[no-any-return]
    return None
