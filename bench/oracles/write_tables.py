#!/usr/bin/env python3
"""Writes the tables of calls that the scripts beside it make, into crates/md_examples/data/tables.

    write_tables.py [SCRIPT..]          writes the tables of these scripts, or of all
    write_tables.py --check [SCRIPT..]  compares what stands there with what would be written
"""

import importlib
import sys

import rows

SCRIPTS = ["values", "texts", "time_forms", "expression_tables", "imports", "orders", "words", "scripts", "generated"]


def main():
    given = sys.argv[1:]
    is_check = given[:1] == ["--check"]
    scripts = given[is_check:] or SCRIPTS
    unknown = [script for script in scripts if script not in SCRIPTS]
    if unknown:
        sys.exit(f"no such script: {' '.join(unknown)}; the scripts are {' '.join(SCRIPTS)}")
    made = [table for script in scripts for table in importlib.import_module(script).tables()]
    if is_check:
        other = [name for name, text in made if (rows.FOLDER / f"{name}.txt").read_bytes() != text.encode()]
        sys.exit(f"these differ: {' '.join(other)}" if other else 0)
    rows.write(made)


if __name__ == "__main__":
    main()
