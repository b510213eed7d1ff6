"""The small programs of `programs/`, each with a fault that is known, and their repaired twins: the fault is found at its line, and
nothing in the twin."""
import functools
import json
import os
import subprocess
import sys
import tempfile
from concurrent.futures import ThreadPoolExecutor
from pathlib import Path
from typing import Any

import pytest
from needs import jobs
from reading import HERE

sys.path.insert(0, os.path.join(HERE, 'dynamic'))
import program_graph  # noqa: E402

PROGRAMS = os.path.join(HERE, 'programs')
NAMES = sorted(n for n in os.listdir(PROGRAMS) if os.path.exists(os.path.join(PROGRAMS, n, 'expected.json'))) \
    if os.path.isdir(PROGRAMS) else []
READ = os.path.join(os.path.dirname(HERE), 'read')


@functools.cache
def prepared() -> str:
    """A folder with the compile commands of all programs."""
    folder = tempfile.mkdtemp(prefix='gammonfig-programs')
    subprocess.run([sys.executable, os.path.join(PROGRAMS, 'programs_check.py'), '--prepare', '--folder', folder], check=True,
                   stdout=subprocess.DEVNULL)
    return folder


def read(program: tuple[str, str]) -> 'subprocess.CompletedProcess[str]':
    """Reads one program, and judges it."""
    name, variant = program
    build = os.path.join(prepared(), name, variant)
    return subprocess.run([READ, '-p', build, '--root', os.path.join(PROGRAMS, name, variant), '--verdict', '--json', '--no-cache',
                           '--quiet', '--jobs', '1'], capture_output=True, text=True, check=False)


@functools.cache
def all_read() -> dict[tuple[str, str], 'subprocess.CompletedProcess[str]']:
    """All programs, several at once."""
    prepared()
    programs = [(name, variant) for name in NAMES for variant in ('faulty', 'repaired')]
    with ThreadPoolExecutor(jobs()) as pool:
        return dict(zip(programs, pool.map(read, programs)))


def findings(name: str, variant: str) -> list[dict[str, Any]]:
    done = all_read()[(name, variant)]
    assert done.returncode in (0, 3), done.stderr
    found: list[dict[str, Any]] = json.loads(done.stdout)['findings']
    return found


@pytest.mark.parametrize('name', NAMES)
def test_the_fault_is_found_at_its_line(name: str) -> None:
    with open(os.path.join(PROGRAMS, name, 'expected.json'), encoding='utf-8') as file:
        expected = json.load(file)
    found = findings(name, 'faulty')
    places = {(f['rule'], spot.get('file'), spot.get('line')) for f in found for spot in [f, *f['chain']]}
    wanted = {(rule, expected['file'], expected['line']) for rule in expected['rules']}
    assert places & wanted, found


def recorded() -> list[tuple[str, str, str]]:
    """What really happened in runs, as `dynamic/dynamic_check.py` compares it: a program, and a signal at once within another."""
    with open(os.path.join(HERE, 'dynamic', 'pairs.json'), encoding='utf-8') as file:
        told: dict[str, list[str]] = json.load(file)
    found = []
    for name, pairs in told.items():
        for pair in pairs:
            outer, _, inner = pair.partition(' > ')
            if inner and not outer.startswith('loop'):
                found.append((name, outer, inner))
    return found


@pytest.mark.parametrize('name, outer, inner', recorded())
def test_what_happened_in_a_run_is_a_way_that_was_read(name: str, outer: str, inner: str) -> None:
    program, variant = name.split('/')
    all_read()
    folder = Path(prepared()) / program / variant
    graph = program_graph.read(folder / 'gammonfig' / 'app.gf', folder)
    starts, ends = (graph.signals(*signal.rsplit('.', 1)) for signal in (outer, inner))
    assert starts and ends
    assert graph.reach(starts) & ends


@pytest.mark.parametrize('name', NAMES)
def test_the_twin_is_clean(name: str) -> None:
    assert findings(name, 'repaired') == []
