#!/usr/bin/env python3
"""Plants bugs in the bodies of functions, one at a time, and lists those that are still proved.

    python3 tools/planted.py [CRATE..] [--edits] [--jobs N] [--only WORD] [--list] [--kept FILE]

Run it in a clone, after `rt all check`. A bug is one small change of a body in crates/CRATE/src, tried in a copy of the clone by
`rt check` of its crate: a comparison, a sum or an `and` turned, a constant one larger or smaller, another byte or text, a condition
turned round, a statement or an early return left out, two arguments exchanged, an argument by another of its type, another case
of an enum, another method of the same form, no value for `Some`. Tests, and programs that only read and write, are left out.
With --edits the bugs are those of tools/edits/CRATE in their place, each a file as in crates/CRATE/must-fail, which the gate tries.

The last line counts them. A row is written for each that is still proved (either it means the same, or a contract says too little),
and for each that was refused only because a file of proofs/ no longer fits (which shows nothing of the contract). With --kept, what came
of each is added to FILE, and what FILE has is not tried again.
"""
import argparse
import os
import queue
import re
import shutil
import signal
import subprocess
import tempfile
from collections import Counter
from concurrent.futures import ThreadPoolExecutor
from pathlib import Path

TURNED = [(' < ', ' <= '), (' <= ', ' < '), (' > ', ' >= '), (' >= ', ' > '), (' == ', ' != '), (' != ', ' == '), (' && ', ' || '),
          (' || ', ' && '), (' + ', ' - '), (' - ', ' + '), (' += ', ' -= '), (' |= ', ' &= '), (' &= ', ' |= '), (' | (', ' & ('),
          ('..=', '..'), ('.min(', '.max('), ('.max(', '.min('), ('.any(', '.all('), ('.all(', '.any('), ('.is_none_or(', '.is_some_and('),
          ('.is_some_and(', '.is_none_or('), ('.starts_with(', '.ends_with('), ('.ends_with(', '.starts_with('), ('.is_ok_and(', '.is_err_and('),
          ('.is_empty()', '.len() == 1'), ('break', 'continue'), ('.or_else(', '.and('), ('.find(', '.rfind('), ('.position(', '.rposition('),
          ('.first()', '.last()'), ('.last()', '.first()'), ('.take(', '.skip('), ('.skip(', '.take(')]
WAIT = 240  # seconds for one check
PROGRAMS = {'names', 'names_refused', 'names_at_limit', 'names_too_long', 'handles', 'handles_long', 'replay', 'samples_tried',
            'listing_io', 'handling_io', 'gushteral', 'tool_components', 'tool_paths', 'tool_meet'}


def blanked(text):
    """The text with comments and texts blanked, of the same length."""
    out = list(text)
    for found in re.finditer(r'//[^\n]*|b?"(?:\\.|[^"\\])*"', text):
        for i in range(found.start(), found.end()):
            out[i] = ' ' if out[i] != '\n' else '\n'
    return ''.join(out)


def closing(code, at):
    depth = 0
    for i in range(at, len(code)):
        depth += {'{': 1, '}': -1}.get(code[i], 0)
        if depth == 0:
            return i
    return len(code)


def bodies(code):
    """Each function with its parameters and where its body begins and ends."""
    for found in re.finditer(r'\bfn (\w+)', code):
        i = found.end()
        while i < len(code) and code[i] not in '{;':
            clause = re.match(r'(requires|ensures|ghost)\b', code[i:])
            i = closing(code, code.index('{', i)) + 1 if clause and code[i - 1].isspace() else i + 1
        if i < len(code) and code[i] == '{':
            head = re.split(r'\b(?:requires|ensures|where)\b|->', code[found.start():i])[0]
            params = dict(re.findall(r'(\w+): (&?[^,()]+)', head[head.index('('):]))
            yield found.group(1), params, i + 1, closing(code, i)


def edits(text):
    """Each change of a body: its function, what it is, and which part becomes what."""
    code = blanked(text.split('#[cfg(test)]')[0])
    cases = {}
    for found in re.finditer(r'\b([A-Z]\w*)::([A-Z]\w*)\b(?!\s*[({:])', code):
        cases.setdefault(found.group(1), set()).add(found.group(2))
    for name, params, start, end in bodies(code):
        body = code[start:end]
        for what, a, b, new in list(changes(body, text[start:end], params, cases)):
            yield name, what, start + a, start + b, new


def changes(body, words, params, cases):
    for old, new in TURNED:
        for m in re.finditer(re.escape(old), body):
            yield f'{old.strip()} to {new.strip()}', m.start(), m.end(), new
    for m in re.finditer(r"(?<![\w.'])(0x[0-9a-fA-F_]+|\d[\d_]*)(?![\w.'])", body):
        n = int(m.group(1).replace('_', ''), 0)
        for k in ([n + 1, n - 1] if n else [1]):
            yield f'{n} to {k}', m.start(), m.end(), str(k)
    for m in re.finditer(r"b'([^'\\])'", body):
        yield 'another byte', m.start(), m.end(), "b'q'" if m.group(1) != 'q' else "b'z'"
    for m in re.finditer(r'b?"((?:\\.|[^"\\])+)"', words):
        if body[m.start()] == ' ':
            last = m.end() - 1
            yield 'another text', last - 1, last, 'q' if words[last - 1] != 'q' else 'z'
    for m in re.finditer(r'\b(true|false)\b', body):
        yield 'flag turned', m.start(), m.end(), {'true': 'false', 'false': 'true'}[m.group()]
    for m in re.finditer(r'(?<=[\s(|])!(?=[\w(])', body):
        yield 'no longer turned round', m.start(), m.end(), ''
    for m in re.finditer(r'\b(?:if|while) (?!let\b)([^{}\n]+) \{', body):
        yield 'condition turned round', m.start(1), m.end(1), f'!({m.group(1)})'
    for m in re.finditer(r'\n\s*((?!let |return\b|use |break|continue|\}|else)[^\n;{}]+;)(?=\n)', body):
        yield 'statement left out', m.start(1), m.end(1), ''
    for m in re.finditer(r'\breturn\b[^;]*;', body):
        yield 'return left out', m.start(), m.end(), ''
    for m in re.finditer(r'(?<!fn )\b(\w+!?)\((&?\w+), (&?\w+)\)', body):
        if m.group(2) != m.group(3):
            yield 'arguments exchanged', m.start(), m.end(), f'{m.group(1)}({m.group(3)}, {m.group(2)})'
    for word in params:
        for other in params:
            if word != other and params[word].strip() == params[other].strip():
                for m in re.finditer(rf'(?<![\w.]){word}\b(?!\s*:)', body):
                    yield f'{word} to {other}', m.start(), m.end(), other
    for m in re.finditer(r'\b([A-Z]\w*)::([A-Z]\w*)\b(?!\s*[({:])', body):
        others = sorted(cases.get(m.group(1), set()) - {m.group(2)})
        for other in {others[len(m.group(2)) % len(others)], others[m.start() % len(others)]} if others else ():
            yield f'{m.group(2)} to {other}', m.start(), m.end(), f'{m.group(1)}::{other}'
    for m in re.finditer(r'\bSome\((\w+)\)(?=\s*[,;\n}])(?!\s*=)', body):
        yield 'Some to None', m.start(), m.end(), 'None'


class Bug:
    def __init__(self, crate, path, name, what, start, end, new):
        self.crate, self.path, self.name, self.what, self.start, self.end, self.new = crate, path, name, what, start, end, new

    def row(self, root):
        text = (root / self.path).read_text()
        line = text.count('\n', 0, self.start) + 1
        column = self.start - text.rfind('\n', 0, self.start)
        return f'{self.path}:{line}:{column} {self.name}: {self.what} | {text.splitlines()[line - 1].strip()[:100]}'

    def verdict(self, copy):
        file = copy / self.path
        text = file.read_text()
        file.write_text(text[:self.start] + self.new + text[self.end:])
        try:
            return checked(copy / 'crates' / self.crate)
        finally:
            file.write_text(text)


class Written:
    """A bug that a file writes down: a line `file: PATH`, and lines `old: TEXT` and `new: TEXT` by turns."""

    def __init__(self, edit):
        self.crate, self.edit = edit.parent.name, edit

    def row(self, root):
        return f'{self.edit.relative_to(root)}'

    def verdict(self, copy):
        lines = [line.split(': ', 1) for line in self.edit.read_text().splitlines() if ': ' in line]
        file = copy / 'crates' / self.crate / next(text for word, text in lines if word == 'file')
        text = edited = file.read_text()
        for (_, old), (_, new) in zip(lines[1::2], lines[2::2]):
            if edited.count(old) != 1:
                return 'no program'
            edited = edited.replace(old, new)
        file.write_text(edited)
        try:
            return checked(copy / 'crates' / self.crate)
        finally:
            file.write_text(text)


def checked(folder):
    """What `rt check` says of the crate; a check that takes too long is ended with all that it started."""
    run = subprocess.Popen(['rt', 'check'], cwd=folder, stdout=subprocess.PIPE, stderr=subprocess.STDOUT, start_new_session=True)
    try:
        said, _ = run.communicate(timeout=WAIT)
        return verdict_of(run.returncode, said.decode(errors='replace'))
    except subprocess.TimeoutExpired:
        os.killpg(run.pid, signal.SIGKILL)
        run.communicate()
        return 'no end'


def verdict_of(status, said):
    if status == 0:
        return 'proved'
    if 'it is not proved that' in said or 'did not prove' in said:
        return 'refused'
    if re.search(r'^\./proofs/.*(has no field|not in scope|names no|no such|is not a field|expected answers)', said, re.M):
        return 'misfit'
    if re.search(r'^\./(proofs|specs)/.*error', said, re.M) or 'not proved' in said:
        return 'refused'
    return 'no program'


def main():
    parser = argparse.ArgumentParser(description=__doc__, formatter_class=argparse.RawDescriptionHelpFormatter)
    parser.add_argument('crates', nargs='*')
    parser.add_argument('--edits', action='store_true')
    parser.add_argument('--jobs', type=int, default=4)
    parser.add_argument('--only', default='')
    parser.add_argument('--kept', type=Path)
    parser.add_argument('--list', action='store_true')
    args = parser.parse_args()
    root = Path.cwd()
    names = args.crates or sorted(p.name for p in (root / 'crates').iterdir() if not p.name.endswith('_tests') and p.name not in PROGRAMS)
    if args.edits:
        bugs = [Written(edit) for name in names for edit in sorted((root / 'tools/edits' / name).glob('*.edit')) if args.only in edit.name]
    else:
        bugs = [Bug(name, file.relative_to(root), *edit) for name in names for file in sorted((root / 'crates' / name / 'src').rglob('*.rt')) if file.name != 'tests.rt'
                for edit in edits(file.read_text()) if args.only in edit[0]]
    known = {}
    if args.kept and args.kept.exists():
        known = dict(reversed(line.split(': ', 1)) for line in args.kept.read_text().splitlines())
    if args.list:
        print(*(bug.row(root) for bug in bugs), f'{len(bugs)} bugs', sep='\n')
        return
    with tempfile.TemporaryDirectory(prefix='planted-') as base:
        copies = queue.Queue()
        for k in range(args.jobs):
            copies.put(Path(shutil.copytree(root, Path(base) / str(k), symlinks=True, ignore=shutil.ignore_patterns('.git', 'host'))))

        def tried(bug):
            row = bug.row(root)
            if row in known:
                return row, known[row]
            copy = copies.get()
            try:
                verdict = bug.verdict(copy)
            finally:
                copies.put(copy)
            if args.kept:
                with args.kept.open('a') as file:
                    file.write(f'{verdict}: {row}\n')
            return row, verdict

        counts = Counter()
        with ThreadPoolExecutor(args.jobs) as pool:
            for row, verdict in pool.map(tried, bugs):
                counts[verdict] += 1
                if verdict not in ('refused', 'no program'):
                    print(f'{verdict}: {row}', flush=True)
        print(', '.join(f'{verdict}: {n}' for verdict, n in sorted(counts.items())))


main()
