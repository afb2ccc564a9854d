#!/usr/bin/env python3
"""Measures what the proof costs: the proved services beside the same code compiled without its proof.

  tools/twin.py           write the twin to target/twin, build it, and print the tables of docs/PERFORMANCE.md
  tools/twin.py write     only write it

The twin is Rust made from the Rattle sources of the crates that `services` is built from, one module for each crate. Contracts,
ghost imports, ghost members and comments are dropped, a path `a::b` becomes `crate::a::b`, and each struct and enum may be copied; every
statement stays as it is. There are three crates of it, which differ in what is checked while the code runs:

  unchecked   nothing: each index is `get_unchecked`. Only the proof makes this safe; it is here to be measured
  twin        indices, as in every release build of Rust
  guarded     indices, and that no sum wraps

Each crate has the interface of `fickle/`, whose source it uses. The benchmark first asserts that all answers and buffers are those
of the proved services. Needs target/staticlib/libservices.a (`tools/build.sh`) and cargo. Run from the repository's root.
"""
import glob
import os
import re
import subprocess
import sys
from pathlib import Path

ROOT = 'services'
TARGET = 'target/twin'
PROVED = 'target/staticlib/libservices.a'
BENCH = 'twins'
UNCHECKED, TWIN, GUARDED = 'unchecked', 'twin', 'guarded'
VARIANTS = [UNCHECKED, TWIN, GUARDED]
# The modules that fickle/src/lib.rs has beside itself; those for tests are left out. None may have the name of a Rattle crate.
MODULE = re.compile(r'^(?<!#\[cfg\(test\)\]\n)mod (\w+);$', re.M)
ALLOWED = '#![allow(warnings)]\n'
CONTRACT = re.compile(r'\b(requires|ensures)(\s+\w+)?\s*\{')
# A member of a struct, a trait or an impl that is for proofs alone, up to its braces.
GHOST = re.compile(r'^ *(?:pub )?ghost \w+\s*[:=]\s*\{', re.M)
# What asks the check for tactics or names a cycle.
ATTRIBUTE = re.compile(r'^ *#!?\[(?:tactic|cycle)\b[^\]]*\]\n+', re.M)
# The derives of a struct or an enum, where it has any: the twin may always copy it, and Rust has no derive of Drop.
DERIVED = re.compile(r'^(?:#\[derive\(([^)]*)\)\]\n)?((?:pub )?(?:struct|enum) )', re.M)
# What may not be left in the Rust text.
LEFT_OVER = re.compile(r'[^\x00-\x7f]|\b(ghost|requires|ensures|invariant|decreases)\b')
# A service under its C name, and the declarations of all of them in fickle/src/lib.rs.
SERVICE = re.compile(r'#\[unsafe\(no_mangle\)\]\s*pub extern "C" fn (\w+)\(([^)]*)\) -> (\w+)')
LINKED = re.compile(r'^mod c \{\n.*?^\}\n', re.M | re.S)

WORKSPACE = '''# Written by tools/twin.py. All Rattle crates are compiled as one; codegen-units says the same for each twin.
[workspace]
resolver = "2"
members = [{members}]

[profile.release]
opt-level = 3

{profiles}'''

MAIN = '''//! Written by tools/twin.py: asserts that the twins agree with the proved services, then measures all of them.
use compare::measure::{self, Measured, PROVED, SECOND};
use compare::services_of_fickle;

TYPES
fn main() {
    let all = [PROVED, TWINS, SECOND];
    let [proved, unchecked, twin, guarded, _] = [0, 1, 2, 3, 4];
    second::machine::on_large_stack(|| {
        for other in [unchecked, twin, guarded] {
            measure::assert_agree(&all[proved], &all[other]);
        }
        let means = measure::tables(&all);
        let pairs = [(twin, proved), (unchecked, proved), (twin, unchecked), (guarded, unchecked)];
        measure::summary(&all, &means, &pairs);
    });
}
'''


def fail(message):
    sys.exit(f'tools/twin.py: {message}')


def crates_below(root):
    """Returns the crates that a crate is built from, itself last."""
    below = {}
    for line in Path('crates.txt').read_text().splitlines():
        name, colon, needed = line.partition('#')[0].partition(':')
        if colon:
            below[name.split()[0]] = needed.split()
    found = []

    def visit(name):
        if name not in found:
            for other in below[name]:
                visit(other)
            found.append(name)
    visit(root)
    return found


def closing(text, start):
    """Returns the place of the bracket that closes the one at `start`."""
    opened = text[start]
    closed = {'{': '}', '[': ']'}[opened]
    depth = 0
    for at in range(start, len(text)):
        depth += (text[at] == opened) - (text[at] == closed)
        if depth == 0:
            return at
    fail(f'no {closed} closes {text[start:start + 40]!r}')


def without_contracts(text):
    contract = CONTRACT.search(text)
    while contract:
        end = closing(text, contract.end() - 1)
        text = text[:contract.start()].rstrip() + '\n' + text[end + 1:].lstrip('\n')
        contract = CONTRACT.search(text)
    return text


def derived(found):
    names = [name for name in (found[1] or '').split(', ') if name not in ('', 'Clone', 'Copy', 'Drop')]
    return f'#[derive({", ".join(["Clone", "Copy"] + names)})]\n{found[2]}'


def without_ghosts(text):
    ghost = GHOST.search(text)
    while ghost:
        end = closing(text, ghost.end() - 1)
        text = text[:ghost.start()] + text[end + 1:].lstrip(';,\n')
        ghost = GHOST.search(text)
    return text


def without_checks(text):
    """Turns each `name[index]`, with the fields before the name, into an access that is not checked; a slice `name[a..b]` stays."""
    result, at = '', 0
    for index in re.finditer(r'(?<![\w.])((?:[a-z_]\w*\.)*[a-z_]\w*)\[', text):
        if index.start() < at:
            continue
        end = closing(text, index.end() - 1)
        inner = without_checks(text[index.end():end])
        written = re.match(r'\s*([-+|&]?=)(?!=)', text[end + 1:])
        access = 'get_unchecked_mut' if written else 'get_unchecked'
        if '..' in inner:
            replaced = f'{index[1]}[{inner}]'
        else:
            replaced = f'(*unsafe {{ {index[1]}.{access}({inner}) }})'
        result += text[at:index.start()] + replaced
        at = end + 1
    return result + text[at:]


def sources(crate):
    """Returns the source files of a Rattle crate, each with the Rust module that it is: its own, and those below it."""
    files = sorted(glob.glob(f'crates/{crate}/src/*.rt'))
    names = [os.path.splitext(os.path.basename(file))[0] for file in files]
    return [(file, crate if name == 'lib' else f'{crate}::{name}') for file, name in zip(files, names)]


def rust_of(file, crates):
    """Returns the Rust text of a source file."""
    text = Path(file).read_text()
    text = re.sub(r'//.*', '', text)
    text = re.sub(r'^ghost use [^;]*;\n', '', text, flags=re.M)
    text = ATTRIBUTE.sub('', text)
    text = without_ghosts(without_contracts(text))
    text = re.sub(rf'(?<![\w:])({"|".join(crates)})::', r'crate::\1::', text)
    text = DERIVED.sub(derived, text)
    text = SERVICE.sub(r'#[inline(never)]\npub fn \1(\2) -> \3', text)
    left = LEFT_OVER.search(text)
    if left:
        fail(f'{file} has {left[0]!r} where no contract is')
    return text


def c_parameter(name, kind):
    """Returns how a parameter crosses the C interface, and how it is put together again."""
    slice_of = re.fullmatch(r'&(mut )?\[(\w+)\]', kind)
    if slice_of:
        pointer, suffix = ('*mut', '_mut') if slice_of[1] else ('*const', '')
        return (f'{name}: {pointer} {slice_of[2]}, {name}_length: usize',
                f'std::slice::from_raw_parts{suffix}({name}, {name}_length)')
    lent = re.fullmatch(r'&mut (\w+)', kind)
    if lent:
        return f'{name}: *mut {lent[1]}', f'&mut *{name}'
    return f'{name}: {kind}', name


def c_interface():
    """Returns the module of the services under their C names: slices pass as pointer and length, as Rattle passes them."""
    functions = []
    services = [(module, *service) for file, module in sources(ROOT) for service in SERVICE.findall(Path(file).read_text())]
    for module, name, parameters, result in services:
        pairs = [parameter.split(':') for parameter in parameters.split(',') if parameter.strip()]
        crossed = [c_parameter(one.strip(), kind.strip()) for one, kind in pairs]
        taken, given = (', '.join(parts) for parts in zip(*crossed))
        functions.append(f'#[inline(never)]\npub unsafe extern "C" fn {name}({taken}) -> {result} {{\n'
                         f'    crate::{module}::{name}({given})\n}}\n')
    if not functions:
        fail(f'crates/{ROOT} has no extern "C" function')
    return '\n'.join(functions)


def wrapper(crates):
    """Returns the source of `fickle/` with the modules of the twin in place of the linked library."""
    text, count = LINKED.subn('mod c;\n', Path('fickle/src/lib.rs').read_text())
    if count != 1:
        fail('fickle/src/lib.rs has no module c to replace')
    return ALLOWED + text + ''.join(f'mod {crate};\n' for crate in crates)


def write(path, text):
    path = os.path.join(TARGET, path)
    os.makedirs(os.path.dirname(path), exist_ok=True)
    if not os.path.exists(path) or Path(path).read_text() != text:
        Path(path).write_text(text)


def manifest(name, paths):
    needed = ''.join(f'{other} = {{ path = "{path}" }}\n' for other, path in paths.items())
    return f'[package]\nname = "{name}"\nversion = "0.1.0"\nedition = "2021"\npublish = false\n\n[dependencies]\n{needed}'


def write_variant(variant, crates):
    write(f'{variant}/Cargo.toml', manifest(variant, {}))
    write(f'{variant}/src/lib.rs', wrapper(crates))
    for module in MODULE.findall(Path('fickle/src/lib.rs').read_text()):
        write(f'{variant}/src/{module}.rs', Path(f'fickle/src/{module}.rs').read_text())
    write(f'{variant}/src/c.rs', c_interface())
    for crate in crates:
        for file, module in sources(crate):
            text = rust_of(file, crates)
            path = f'{variant}/src/{module.replace("::", "/")}.rs'
            write(path, without_checks(text) if variant == UNCHECKED else text)


def write_bench():
    paths = {name: f'../../../{name}' for name in ['compare', 'second']} | {variant: f'../{variant}' for variant in VARIANTS}
    write(f'{BENCH}/Cargo.toml', manifest(BENCH, paths))
    types = ''.join(f'services_of_fickle!({variant.title()}, {variant}, run_rows_on_this_stack);\n' for variant in VARIANTS)
    twins = ', '.join(f'Measured {{ name: "{variant}", services: &{variant.title()} }}' for variant in VARIANTS)
    write(f'{BENCH}/src/main.rs', MAIN.replace('TYPES', types).replace('TWINS', twins))
    profiles = ''.join(f'[profile.release.package.{variant}]\ncodegen-units = 1\n'
                       f'overflow-checks = {str(variant == GUARDED).lower()}\n\n' for variant in VARIANTS)
    members = ', '.join(f'"{name}"' for name in [BENCH] + VARIANTS)
    write('Cargo.toml', WORKSPACE.format(members=members, profiles=profiles))


def main(arguments):
    if arguments not in ([], ['write']):
        sys.exit(__doc__)
    crates = crates_below(ROOT)
    # The page that fickle/src/explanations.rs includes, by the path from a variant's source.
    write('docs/REFUSALS.md', Path('docs/REFUSALS.md').read_text())
    for variant in VARIANTS:
        write_variant(variant, crates)
    write_bench()
    if not arguments:
        if not os.path.exists(PROVED):
            fail(f'{PROVED} is missing: run `tools/build.sh`')
        environment = {'CARGO_TARGET_DIR': os.path.abspath('target/cargo')} | os.environ
        command = ['cargo', 'run', '--offline', '--release', '--manifest-path', f'{TARGET}/Cargo.toml', '-p', BENCH]
        sys.exit(subprocess.run(command, env=environment).returncode)


if __name__ == '__main__':
    main(sys.argv[1:])
