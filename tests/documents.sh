#!/usr/bin/env bash
# Holds the documents to the crates: the rooms and tables of docs/ARCHITECTURE.md, the bracketed names of docs/PROMISES.md, a
# README.md for each crate, docs/THEOREM.md to the definitions, and pictures and tables to the figures that they are made of.
# Fails also where contracts or proofs have names that nobody uses.
# Usage: tests/documents.sh [--list]     (--list says of each bracketed name what it is, and where it stands)
# Each check runs, also where one before it failed.
here=$(cd "$(dirname "$0")" && pwd) || exit 2
status=0
python3 "$here/../tools/pictures/make.py" || status=1
python3 "$here/../bench/tables.py" || status=1
python3 "$here/theorem.py" || status=1
python3 "$here/../tools/unused.py" || status=1
python3 "$here/documents.py" "$@" || status=1
exit $status
