#!/usr/bin/env python3
"""Keeps specs, laws and contracts readable.

  tools/tidy.py CRATE...    drop imported names that a file does not use, and break lines over 110 characters
                            in specs/, in proofs/ and in the contracts of src/; then run `rt fmt`

A line is broken where the nesting is least, before an arrow or an operator rather than between arguments, never inside a quoted
text, and inside a path only where there is no other place. `tools/proofs.py short` comes first: it names long paths. Run from the repository's root.
"""
import glob
import re
import subprocess
import sys
from pathlib import Path

LIMIT = 110
OPENING, CLOSING = '([{⌜', ')]}⌝'
NAME = re.compile(r'[^\s(){},;.\[\]@⌜⌝]+')
USE = re.compile(r'^((?:ghost )?use )([^\s{]+)\.\{(.*)\}(;?)$')
# A break never comes after these words, nor before the parts of NEVER_BEFORE.
NEVER_AFTER = re.compile(r'(^|[\s(])(λ|let|use|unfolding|pub|abbrev|unfoldable|record|data|at|as)$|λ [^.]*$')
NEVER_BEFORE = re.compile(r'[,;)\]}]|(in|at)\b|\.\w|[=:]\s|\{$')


def is_comment(line):
    return line.lstrip().startswith(('--', '//'))


def used_in(body):
    """Tells names in use; `.name` is a field, and says nothing of a name that was imported."""
    names = {word[0] for word in NAME.finditer(body) if not re.match(r'[\s(]\.$', body[max(0, word.start() - 2):word.start()])}
    def used(name):
        if name.startswith('_') or name.endswith('_'):
            parts = [part for part in name.split('_') if part]
        else:
            parts = [name]
        if name in names or all(part in (names if NAME.fullmatch(part) else body) for part in parts):
            return True
        return any(name in re.split(r"[^\w·′'-]+", other) for other in names)
    return used


def without_unused_imports(lines):
    body = '\n'.join(line for line in lines if not is_comment(line) and not re.match(r'(ghost )?use ', line))
    used, kept = used_in(body), []
    for line in lines:
        group, alias = USE.match(line), re.match(r'^use (\S+) as ([^\s;]+)$', line)
        if group:
            names = [name.strip() for name in group[3].split(',') if name.strip()]
            names = [name for name in names if used(name.split(' as ')[-1].strip())]
            if names:
                kept.append(f"{group[1]}{group[2]}.{{{', '.join(names)}}}{group[4]}")
        elif not alias or re.search(r'(?<![^\s(){},;\[\]⌜⌝])' + re.escape(alias[2]) + r'\.', body):
            kept.append(line)
    return kept


def nesting(line):
    depth, depths = 0, []
    for letter in line:
        depth -= letter in CLOSING
        depths.append(depth)
        depth += letter in OPENING
    return depths


def rank(before, after):
    if before.endswith(';'):
        return 0
    if after.startswith('→ '):
        return 1
    if re.match(r'(×|⊎|∙) ', after) or before.endswith((' =', ' in', ',', '.')):
        return 2
    return 3 if re.match(r'(≡|≤|<|\|\||∷|\+\+) ', after) else 4


def places(line, first):
    depths = nesting(line)
    for space in re.finditer(r'(?<! ) (?=\S)', line):
        at = space.start()
        before, after = line[:at], line[at + 1:]
        quoted = before.count('"') % 2 == 1
        if first < at <= LIMIT and not quoted and not NEVER_AFTER.search(before):
            if not NEVER_BEFORE.match(after):
                yield depths[at], rank(before, after), at
            elif after.startswith('.before'):
                yield 100, 5, at


def broken(line):
    indent = len(line) - len(line.lstrip(' '))
    parts = []
    while len(line) > LIMIT and not is_comment(line):
        start = len(line) - len(line.lstrip(' '))
        found = list(places(line, start + 8))
        if not found:
            break
        late = [place for place in found if place[2] > start + 40] or found
        depth, order, _ = min(found)
        at = max(place[2] for place in found if place[:2] == (depth, order))
        if at < start + 20:
            depth = min(late)[0]
            at = max(place[2] for place in late if place[0] == depth)
        parts.append(line[:at].rstrip())
        line = ' ' * (indent + 4) + line[at + 1:].lstrip()
    return parts + [line]


def broken_import(line):
    group, lines, names = USE.match(line), [], []
    if not group:
        return [line]
    limit = max(LIMIT, len(group[1] + group[2]) + 60)  # a path that fills the line is not written once per name
    written = lambda some: f"{group[1]}{group[2]}.{{{', '.join(some)}}}{group[4]}"
    for name in (name.strip() for name in group[3].split(',')):
        if names and len(written(names + [name])) > limit:
            lines.append(written(names))
            names = []
        names.append(name)
    return lines + [written(names)]


def tidied(path):
    lines = without_unused_imports(Path(path).read_text().split('\n'))
    result = []
    for line in lines:
        contract = re.match(r'    (requires|ensures) ', line) or (line.startswith('        ') and '⌝' in line)
        if re.match(r'(ghost )?use ', line):
            result += broken_import(line)
        elif path.endswith('.antt') or contract:
            result += broken(line)
        else:
            result.append(line)
    return result


def main(crates):
    if not crates:
        sys.exit(__doc__)
    for crate in crates:
        for path in glob.glob(f'crates/{crate}/**/*', recursive=True):
            if path.endswith(('.antt', '.rt')):
                text = '\n'.join(tidied(path))
                Path(path).write_text(text)
    subprocess.run(['rt', 'fmt'], check=True)


if __name__ == '__main__':
    main(sys.argv[1:])
