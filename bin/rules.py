#!/usr/bin/env python3
"""The rules of `verdict`, as docs/rules.md has them in its table, which is made of the program's own (`verdict --rules`).

Usage: ./gammonfig verdict --rules | bin/rules.py writes the table of docs/rules.md."""
from __future__ import annotations

import json
import os
import re
import sys

PAGE = os.path.join(os.path.dirname(os.path.dirname(os.path.abspath(__file__))), "docs", "rules.md")
HEAD = "| rule | number | severity | what breaks it |\n|---|---|---|---|\n"
ROW = re.compile(r"^\| \[`([a-z-]+)`\]\(#[a-z-]+\) \| (\d*) \| (\w+) \| (.*) \|$", re.M)


def table(rules: list[dict]) -> str:
    """The table of these rules, as `verdict --rules` writes them."""
    rows = (f"| [`{it['id']}`](#{it['id']}) | {it.get('number', '')} | {it['severity']} | {it['summary']} |\n" for it in rules)
    return HEAD + "".join(rows)


def rows() -> list[tuple[str, str]]:
    """Each rule of the page, with its severity and what breaks it; none where the page isn't there."""
    try:
        with open(PAGE, encoding="utf-8") as file:
            return [(name, f"{severity}: {told}") for name, _, severity, told in ROW.findall(file.read())]
    except OSError:
        return []


if __name__ == "__main__":
    print(table(json.load(sys.stdin)), end="")
