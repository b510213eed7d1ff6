"""What a reader of the C++ made of each finding in Qt's examples, kept in `judged.json`, and the page that tells it."""
import json
from dataclasses import dataclass
from pathlib import Path
from typing import Any

HERE = Path(__file__).resolve().parent
HEAD = "| example | units | connections | not understood | unknowns | errors | warnings | notes |\n|---|---|---|---|---|---|---|---|\n"
BEGIN = """# Qt's examples, read and judged

Those of Qt 6.4.2 with seven connections or more. `read_examples.py --page` writes this page of what it reads and of `judged.json`.

"""


@dataclass(frozen=True)
class Judged:
    """A finding, by the places that it may be told at, and what is true of it."""

    example: str
    rule: str
    places: tuple[str, ...]
    what: str
    judged: str

    def fits(self, example: str, finding: dict[str, Any]) -> bool:
        spots = {f"{it.get('file', '').rpartition('/')[2]}:{it.get('line')}" for it in (finding, *finding["chain"], *finding.get("also", ()))}
        # A circle of which the verdict shows that it comes to rest has another rule, and is judged as before.
        rule = finding["rule"].removeprefix("settling-")
        return self.example == example and self.rule == rule and not spots.isdisjoint(self.places)

    def row(self) -> str:
        return f"| {self.example} | {self.rule} | {', '.join(self.places)} | {self.what} | {self.judged} |\n"


def judgements() -> list[Judged]:
    told = json.loads((HERE / "judged.json").read_text())
    return [Judged(it["example"], it["rule"], tuple(it["places"]), it["what"], it["judged"]) for it in told]


def judged_rows(found: list[tuple[str, dict[str, Any]]] | None) -> str:
    """All judgements, and each finding that has none; without findings the judgements alone."""
    known = judgements()
    rows = [it.row() for it in known if found is None or any(it.fits(*one) for one in found)]
    for example, finding in found or ():
        if not any(it.fits(example, finding) for it in known):
            place = f"{finding.get('file', 'Qt')}:{finding.get('line', '')}"
            rows.append(f"| {example} | {finding['rule']} | {place} | {finding['message']} | not judged |\n")
    return "| example | rule | places | what | judged |\n|---|---|---|---|---|\n" + "".join(rows)


def page(rows: list[str], found: list[tuple[str, dict[str, Any]]] | None) -> str:
    return BEGIN + judged_rows(found) + "\n" + HEAD + "".join(it + "\n" for it in rows)
