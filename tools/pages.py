#!/usr/bin/env python3
"""Runs the commands that README.md, docs/FLEETS.md and docs/PRICES.md show, and compares what they print with the pages.

A command stands after `$ ` in a block marked `console`; the lines up to the next one are its output, standard error included, where a line
`...` stands for any lines. `.ci/run`, which runs this, is left out. Run from the repository's root; status 1 where a command prints something else.
"""
import os
import subprocess
import sys

# In the order in which their commands are run: later ones use what earlier ones make.
PAGES = ['README.md', 'docs/FLEETS.md', 'docs/PRICES.md']
GATE = '.ci/run'
ANY = '...'


def examples(page):
    """The commands of the blocks marked `console`, each with the lines that it must print."""
    found = []
    for block in page.split('```console\n')[1:]:
        for line in block.split('```')[0].splitlines():
            if line.startswith('$ '):
                found.append((line[2:], []))
            elif found:
                found[-1][1].append(line)
    return found


def matches(lines, expected):
    """Whether lines are as expected."""
    if not expected:
        return not lines
    if expected[0] == ANY:
        return any(matches(lines[skipped:], expected[1:]) for skipped in range(len(lines) + 1))
    return bool(lines) and lines[0] == expected[0] and matches(lines[1:], expected[1:])


def run(command):
    """What a command prints, as typed by a person, who has cargo build into target/."""
    environment = {name: value for name, value in os.environ.items() if name != 'CARGO_TARGET_DIR'}
    ran = subprocess.run(['sh', '-c', '{ ' + command + '\n} 2>&1'], env=environment, stdout=subprocess.PIPE)
    return ran.stdout.decode(errors='replace').splitlines()


def main():
    for name in PAGES:
        with open(name, encoding='utf-8') as file:
            shown = examples(file.read())
        if len(shown) < 2:
            sys.exit(f'{name}: no examples')
        for command, expected in shown:
            if command == GATE:
                continue
            printed = run(command)
            if not matches(printed, expected):
                sys.exit('\n'.join([command, f'{name} shows:', *expected, 'printed:', *printed]))
            print(f'as {name} shows: {command}', flush=True)


if __name__ == '__main__':
    main()
