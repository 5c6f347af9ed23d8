#!/usr/bin/env python3
"""Spells the definitions and lemmas of this repository as today's Rattle spells names. It was run once, after port.py, and is kept as the record of what it did.

usage: tools/port_names.py [ROOT]     ROOT is a checkout just after port.py; the repository of this script where none is given

tools/port_names.tsv has a row for each name: as it was before the port, as port.py left it, and as it is now. Definitions keep the plain
name; a lemma that would have a definition's name gets _lem. Code and clauses turn from the second column to the third, pages from the
first. It uses the kit's own tool for respelling, which cuts words as the language does."""
import os
import pathlib
import subprocess
import sys
import tempfile

HERE = pathlib.Path(__file__).resolve().parent
ROOT = pathlib.Path(sys.argv[1]).resolve() if len(sys.argv) > 1 else HERE.parent
KIT = pathlib.Path(subprocess.run(['rt', 'doc'], capture_output=True, text=True, check=True).stdout.strip()).parent
SNAKE = KIT / 'port' / 'notes' / '2026-11-18-names-are-in-snake-case' / 'snake.py'
rows = [line.split('\t') for line in (HERE / 'port_names.tsv').read_text().splitlines() if line and not line.startswith('#')]


def turn(pairs, kinds, paths):
    """one pass over the paths, each whole word that is a row's first becoming its second"""
    with tempfile.NamedTemporaryFile('w', suffix='.tsv', delete=False) as f:
        f.writelines(f'{old}\t{new}\n' for old, new in sorted(set(pairs)) if old != new)
    subprocess.run([sys.executable, str(SNAKE), '--table', f.name, '--only', kinds, *paths], cwd=ROOT, check=True, env=os.environ | {'PYTHONDONTWRITEBYTECODE': '1'})
    os.unlink(f.name)


turn([(ported, now) for _, ported, now in rows], 'antt,rt', ['crates'])
turn([(was, now) for was, _, now in rows], 'md', ['README.md', 'docs', 'crates'])
for root in sorted(list((ROOT / 'crates').glob('*/src/lib.rt')) + list((ROOT / 'crates').glob('*/src/main.rt'))):
    text = root.read_text()
    if '#![tactic(auto)]' not in text:
        lines = text.split('\n')
        at = next(k for k, line in enumerate(lines) if not line.startswith('//'))
        root.write_text('\n'.join(lines[:at] + ['#![tactic(auto)]'] + lines[at:]))
