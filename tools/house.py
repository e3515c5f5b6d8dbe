#!/usr/bin/env python3
"""Looks whether the tree keeps its rules, and tells a line for each fault.

Documents name what is there: each name between back-ticks is one of the sources; docs/layers.md has each crate once, with the
crates that it stands on by crates.txt, but for those that these stand on already; docs/definitions.md has each definition with
the file that defines it; docs/promises.md has each function that a crate gives out, and docs/DECISIONS.md each decision's date.
The README is short, and versions, statuses and verbs are the same everywhere. Crates stand in groups, a definition has a name of
its own, and a limit is cited by its name.

Crates are in order: none waits for one that it names nothing of, no lemma stands in two files, none gives out what no other
takes, no line of code, definitions or proofs is longer than 120 characters, and few files go through all operations. Each file is laid out as `rt fmt` does it, and
each edit that must fail can be applied: the gate tells so late.

Scripts are clean by mypy, pyflakes and shellcheck, and names in C by clang-tidy, as far as these are installed."""

import os
import sys
from concurrent.futures import ThreadPoolExecutor
from typing import Callable, Iterator, List

sys.dont_write_bytecode = True

import crate_rules  # noqa: E402
import documents  # noqa: E402
import linters  # noqa: E402
import name_rules  # noqa: E402
import promises  # noqa: E402
import verb_rules  # noqa: E402

RULES: List[Callable[[], Iterator[str]]] = [
    documents.faults_of_layers,
    documents.faults_of_definitions,
    documents.faults_of_decisions,
    documents.faults_of_names,
    documents.faults_of_versions,
    documents.faults_of_statuses,
    documents.faults_of_length,
    promises.faults,
    verb_rules.faults,
    name_rules.faults_of_groups,
    name_rules.faults_of_double_names,
    name_rules.faults_of_limits,
    crate_rules.faults_of_dependencies,
    crate_rules.faults_of_lemmas,
    crate_rules.faults_of_surface,
    crate_rules.faults_of_layout,
    crate_rules.faults_of_edits,
    crate_rules.faults_of_widths,
    crate_rules.faults_of_operations,
]


def main() -> int:
    """Tells all faults, and the status."""
    with ThreadPoolExecutor(len(os.sched_getaffinity(0))) as pool:
        # (programs of others run beside the rules)
        told = [pool.submit(lambda rule=rule: [*rule()]) for rule in linters.linters()]
        faults = [fault for rule in RULES for fault in rule()]
        faults += [fault for it in told for fault in it.result()]
    for fault in faults:
        print(fault)
    print("house:", f"{len(faults)} faults" if faults else "ok")
    return 1 if faults else 0


if __name__ == "__main__":
    sys.exit(main())
