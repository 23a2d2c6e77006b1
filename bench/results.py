"""Reads the page of results."""
import os
import re

from texts import TOP

RESULTS = os.path.join(TOP, "bench", "RESULTS.md")


def page():
    with open(RESULTS, encoding="utf-8") as file:
        return file.read()


def cells(line):
    """The fields of a table's line."""
    return [field.strip().replace("\\|", "|") for field in re.split(r"(?<!\\)\|", line)[1:-1]]


def figures(text, topic):
    """The figures of a topic's table, by the names of row and column in either order: none if there is no such
    topic."""
    found = re.search(rf"^## {topic}\n(.*?)(?=^## |\Z)", text, flags=re.M | re.S)
    rows = [cells(line) for line in found[1].splitlines() if line.startswith("|")] if found else [[]]
    told = {(row[0], name): field for row in rows[2:] for name, field in zip(rows[0][1:], row[1:]) if field}
    return {**told, **{(column, row): field for (row, column), field in told.items()}}
