#!/usr/bin/env python3
"""The files that a new operation touches: those that name the operation which most files name. tools/operation_files.py."""

import sys

sys.dont_write_bytecode = True
from crate_rules import operation_files  # noqa: E402

files = operation_files()
for file in (it for those in files.values() for it in those):
    print(file)
print(", ".join(f"{len(those)} {kind}" for kind, those in files.items()))
