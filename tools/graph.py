#!/usr/bin/env python3
"""Draws the crates of crates.txt into README.md.

  tools/graph.py            write the drawing into README.md, between the lines that begin and end it
  tools/graph.py --check    say whether README.md has it: status 1 where it does not

A crate is drawn below the one crate among those it stands on that itself needs the most; of the others it names those that do not follow
from one that is named. What a crate is for is the comment behind its line in crates.txt. Run from the repository's root.
"""
import sys

BEGIN, END = '<!-- crates: drawn by tools/graph.py -->', '<!-- end of crates -->'


def read_crates(text):
    """The crates in the order of their lines: what each stands on among them, and what it is for."""
    crates, purposes = {}, {}
    for line in text.splitlines():
        entry, _, comment = line.partition('#')
        names, colon, words = entry.partition(':')
        if colon:
            # A static library's line has a word more: NAME staticlib: ..
            name = names.split()[0]
            crates[name] = words.split()
            purposes[name] = comment.strip()
    return {name: [d for d in on if d in crates] for name, on in crates.items()}, purposes


def reach(crates, name):
    """All crates below one."""
    below = set()
    for d in crates[name]:
        below |= {d} | reach(crates, d)
    return below


def draw(text):
    crates, purposes = read_crates(text)
    below = {name: reach(crates, name) for name in crates}
    order = list(crates)
    parents, others, children = {}, {}, {name: [] for name in crates}
    for name, on in crates.items():
        direct = [d for d in on if not any(d in below[e] for e in on)]
        parents[name] = max(direct, key=lambda d: (len(below[d]), -order.index(d)), default=None)
        others[name] = [d for d in direct if d != parents[name]]
        if parents[name]:
            children[parents[name]].append(name)

    lines = []

    def put(name, lead, rest):
        lines.append((f'{lead}{name}', purposes[name], others[name]))
        kids = children[name]
        for kid in kids:
            last = kid == kids[-1]
            put(kid, rest + ('└── ' if last else '├── '), rest + ('    ' if last else '│   '))

    for name in crates:
        if parents[name] is None:
            put(name, '', '')
    width = max(len(head) for head, _, _ in lines) + 2
    drawing = ''
    for head, purpose, more in lines:
        named = f' (and on {", ".join(more)})' if more else ''
        drawing += f'{head:{width}}{purpose}{named}'.rstrip() + '\n'
    return drawing


def main(arguments):
    with open('crates.txt') as crates, open('README.md') as readme:
        drawing, page = draw(crates.read()), readme.read()
    before, begin, rest = page.partition(BEGIN)
    old, end, after = rest.partition(END)
    if not begin or not end:
        sys.exit(f'README.md: there are no lines "{BEGIN}" and "{END}"')
    new = f'{before}{begin}\n```text\n{drawing}```\n{end}{after}'
    if arguments == ['--check']:
        if new != page:
            sys.exit('README.md: the drawing of the crates is not that of crates.txt; run tools/graph.py')
    elif arguments:
        sys.exit(__doc__)
    else:
        with open('README.md', 'w') as readme:
            readme.write(new)


if __name__ == '__main__':
    main(sys.argv[1:])
