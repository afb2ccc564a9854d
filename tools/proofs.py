#!/usr/bin/env python3
"""Writes and maintains proof files.

  tools/proofs.py skel CRATE              write the printed skeleton of each function that has no proof yet
  tools/proofs.py paths CRATE FN [NEED]   what each need of a function can name, nearest first
  tools/proofs.py names CRATE FN...       turn paths into @thing, in place: before the code of a proved function changes
  tools/proofs.py expand CRATE FN...      turn @thing into the path `c .before … .thing`, in place: after it has changed
  tools/proofs.py short CRATE [FN...]     name the places of long lines once per need, by `let`
  tools/proofs.py long CRATE LOG          write them out again in the needs that a note in LOG, of `rt dev`, calls costly

@S is the start of the function: @S .args .x, @S .pre, @S .good. Paths are read from the records that
`rt dev CRATE --generated DIR` writes; DIR is outside the repository. Run from the repository's root.
In a cycle FN is the folder's name, +a+b, or one of its members; its needs are a-returns and so on. In a module FN is MODULE/NAME.
"""
import glob
import hashlib
import os
import re
import subprocess
import sys
import tempfile
from pathlib import Path


def gen_dir(crate):
    here = hashlib.sha1(os.getcwd().encode()).hexdigest()[:8]
    return os.path.join(tempfile.gettempdir(), f'generated-{here}-{crate}')

def generate(crate, force=False):
    d = gen_dir(crate)
    stamp = d + '.stamp'
    src = subprocess.run(f'cat crates/{crate}/src/*.rt crates/{crate}/specs/*.antt | sha1sum', shell=True, capture_output=True, text=True).stdout
    if not force and os.path.exists(stamp) and Path(stamp).read_text() == src and os.path.isdir(d):
        return d
    subprocess.run(['rm', '-rf', d])
    subprocess.run(['rt', 'dev', crate, '--generated', d], capture_output=True, text=True)
    Path(stamp).write_text(src)
    return d

def proof_dir(crate, fn):
    if os.path.isdir(f'crates/{crate}/proofs/{fn}'):
        return fn
    module, slash, name = fn.rpartition('/')
    for x in sorted(os.listdir(f'crates/{crate}/proofs/{module}')):
        if name in members(x):
            return module + slash + x
    return fn

class Records:
    """The records of one generated Lts file."""
    def __init__(self, path):
        s = Path(path).read_text()
        self.fields, self.need = {}, {}
        for x in re.finditer(r'(?m)^( *)pub record (\S+) : Type 0 where\n((?:\1 +.*\n|\n)+)', s):
            name = x.group(2)
            if name.endswith('·own'):
                continue
            ind = re.match(r' *', x.group(3)).group(0)
            self.fields[name] = re.findall(r'(?m)^' + ind + r'pub (\S+) :\s+(\S+)', x.group(3))
        for x in re.finditer(r'(?m)^ *(?:abbrev )?(?:pub )?(Need-\S+) =\s+\(c : (\S+)\)', s):
            self.need[x.group(1)] = x.group(2)

    def chain(self, need):
        place, out, k = self.need[need], [], 0
        while True:
            fs = dict(self.fields[place])
            out += [(f, k) for f in fs if f != 'before']
            if 'before' not in fs:
                out.append(('S', k))
                return out
            place, k = fs['before'], k + 1

cache = {}
def records(crate, fn, member=None):
    d = generate(crate)
    root = f'{d}/Rattle·{crate}·proofs/proofs/{fn}'
    path = f'{root}/Lts-{member}.antt' if member else f'{root}/Lts.antt'
    if path not in cache:
        cache[path] = Records(path)
    return cache[path]

def members(fn):
    """The functions of a cycle, `+a+b` or `module/+a+b`; none of a function by itself."""
    name = fn.rpartition('/')[2]
    return name[1:].split('+') if name.startswith('+') else []

def find_need(crate, fn, name):
    """The records and the name of the need that a definition answers."""
    if not members(fn):
        r = records(crate, fn)
        return r, 'Need-' + name
    for m in sorted(members(fn), key=len, reverse=True):
        d = m.replace('_', '-')
        if name.startswith(d + '-'):
            r = records(crate, fn, m if os.path.exists(f'{generate(crate)}/Rattle·{crate}·proofs/proofs/{fn}/Lts-{m}.antt') else None)
            n = 'Need-' + name[len(d) + 1:]
            if n in r.need:
                return r, n
    # a loop or recursion of one function
    r = records(crate, fn, members(fn)[0]) if len(members(fn)) == 1 else None
    if r and 'Need-' + name in r.need:
        return r, 'Need-' + name
    return None, None

def expand_text(crate, fn, text):
    out, name = [], None
    for block in re.split(r'(\n\n+)', text):
        if '@' not in block:
            out.append(block)
            continue
        m = re.search(r'(?m)^(?:pub )?(\S+) :', block)
        name = m.group(1) if m else None
        rec, need = find_need(crate, fn, name)
        if rec is None or need not in rec.need:
            sys.exit(f'{fn}: no need for {name}')
        near = {}
        for f, k in rec.chain(need):
            near.setdefault(f, k)
        own = rec.chain(need)[0][0]
        def sub(x):
            f = x.group(1)
            if f == 'own':
                f = own
            if f == 'S':
                return 'c' + ' .before' * near['S']
            if f not in near:
                sys.exit(f'{fn} {name}: no {f} among {" ".join(near)}')
            return 'c' + ' .before' * near[f] + ' .' + f
        out.append(re.sub(r'@([A-Za-zκ][A-Za-z0-9-]*)', sub, block))
    return ''.join(out)

def proof_files(crate, fn):
    d = f'crates/{crate}/proofs/{fn}'
    return [p for p in [f'{d}/Proof.antt'] + sorted(glob.glob(glob.escape(f'{d}/Proof') + '/*.antt')) if os.path.exists(p)]

def expand(crate, fns):
    for fn in fns:
        fn = proof_dir(crate, fn)
        for p in proof_files(crate, fn):
            t = Path(p).read_text()
            if '@' in t:
                Path(p).write_text(expand_text(crate, fn, t))

def paths(crate, fn, only=None):
    fn = proof_dir(crate, fn)
    ms = members(fn)
    todo = [(m, records(crate, fn, m)) for m in ms] if ms and os.path.exists(f'{generate(crate)}/Rattle·{crate}·proofs/proofs/{fn}/Lts-{ms[0]}.antt') else [('', records(crate, fn))]
    for m, r in todo:
        for n in r.need:
            full = (m.replace('_', '-') + '-' if m else '') + n[5:]
            if only and only != full:
                continue
            print(full + ':', ' '.join(dict.fromkeys(f for f, k in r.chain(n))))

def skel(crate):
    r = subprocess.run(['rt', 'dev', crate, '--allow-holes'], capture_output=True, text=True, env={**os.environ, 'RT_CUT': '0'})
    out = r.stdout + r.stderr
    for m in re.finditer(r'(?m)^help: write (\S+/proofs/(\S+)/Proof\.antt) with these lines.*\n((?:    .*\n|\s*\n)+)', out):
        path, fn, body = m.groups()
        if os.path.exists(path):
            continue
        text = '\n'.join(l[4:] for l in body.rstrip().split('\n')) + '\n'
        os.makedirs(os.path.dirname(path), exist_ok=True)
        Path(path).write_text(text)
        print('wrote', path)
    for l in out.split('\n'):
        if 'no proof' in l and 'help: prove it first' in l:
            print(l[:160])

START = r'args(?! \.(?:ensures|result|kept)\b)|pre|good|fits|κs'
PATH = re.compile(r'\bc((?: \.before){4,}) \.(?:(' + START + r')\b|(?!before\b)([A-Za-z][A-Za-z0-9-]*))')
NAMED = re.compile(r'let (\S+) = (c(?: \.before)+(?: \.[a-z][A-Za-z0-9-]*)?) in\s+')
NEED = re.compile(r'(?ms)^(?:pub )?(\S+) :.*?\n(\1 (?:t )?c(?: κs)? =)\s+(.*)$')

def unnamed(body):
    """The paths that `let` names, written out where the name stands."""
    body = re.sub(r'\s+\.before', ' .before', body)
    left = 0
    while m := NAMED.search(body, left):
        before, rest = body[:m.start()], body[m.end():]
        word = r'(?<![^\s(])' + re.escape(m[1])
        if re.search(word + r'(?! \.)(?![^\s),;])', rest):
            left = m.end()
        else:
            body = before + re.sub(word + r'(?= \.)', m[2], rest)
    return body

def names(crate, fns):
    """What a path leads to is the same after a change of code, though it has another length."""
    for fn in fns:
        fn = proof_dir(crate, fn)
        for p in proof_files(crate, fn):
            blocks = re.split(r'(\n\n+)', Path(p).read_text())
            for i, b in enumerate(blocks):
                m = NEED.search(b)
                if not m or ' .before' not in m[3]:
                    continue
                rec, need = find_need(crate, fn, m[1])
                if rec is None or need not in rec.need:
                    print(f'{p}: no need for {m[1]}')
                    continue
                near = {}
                for f, k in rec.chain(need):
                    near.setdefault(f, k)
                def sub(x):
                    k, f = x.group(1).count('.before'), x.group(2)
                    if near.get(f) == k:
                        return '@' + f
                    print(f'{p} {m[1]}: {f} is not the nearest')
                    return x.group(0)
                blocks[i] = b[:m.end(2)] + ' ' + re.sub(r'\bc((?: \.before)*) \.(?!before\b)([A-Za-zκ][A-Za-z0-9-]*)', sub, unnamed(m[3]))
            Path(p).write_text(''.join(blocks))

def long(crate, log):
    """Where a `large solution` note names a need, its paths are written out again: solutions repeat what a `let` names."""
    for path, name in set(re.findall(rf'(?m)(crates/{crate}/proofs/[^/\n]+/[^:\n]*):.*large solution.*\(in `(\S+)`\)$', Path(log).read_text())):
        blocks = re.split(r'(\n\n+)', Path(path).read_text())
        for i, b in enumerate(blocks):
            m = NEED.search(b)
            if m and m[1] == name:
                blocks[i] = b[:m.end(2)] + ' ' + unnamed(m[3])
        Path(path).write_text(''.join(blocks))

def short(crate, fns):
    """In needs that take long lines, each place is named once, from the nearest on: `let at-put = c .before … in`."""
    for fn in fns or sorted(x for x in os.listdir(f'crates/{crate}/proofs') if os.path.isdir(f'crates/{crate}/proofs/{x}')):
        fn = proof_dir(crate, fn)
        for p in proof_files(crate, fn):
            blocks = re.split(r'(\n\n+)', Path(p).read_text())
            for i, b in enumerate(blocks):
                m = NEED.search(b)
                if not m or all(len(x) <= 110 for x in b[m.start(2):].split('\n')) and not NAMED.search(m.group(3)):
                    continue
                body = unnamed(m.group(3))
                places = {}
                for x in PATH.finditer(body):
                    places.setdefault(x.group(1), 'at-' + x.group(3) if x.group(3) else 'start')
                names, lets, last = {}, [], ('', 'c')
                for path in sorted(places, key=len):
                    name = places[path]
                    while name in names.values():
                        name += '′'
                    names[path] = name
                    lets.append(f'let {name} = {last[1]}{path[len(last[0]):]} in')
                    last = (path, name)
                if lets:
                    body = PATH.sub(lambda x: names[x.group(1)] + x.group(0)[1 + len(x.group(1)):], body)
                    blocks[i] = b[:m.end(2)] + '\n    ' + '\n    '.join(lets) + '\n    ' + body
            Path(p).write_text(''.join(blocks))

if __name__ == '__main__':
    a = sys.argv[1:]
    if len(a) < 2:
        sys.exit(__doc__)
    {'skel': lambda: skel(a[1]), 'paths': lambda: paths(a[1], a[2], a[3] if len(a) > 3 else None),
     'names': lambda: names(a[1], a[2:]), 'expand': lambda: expand(a[1], a[2:]), 'short': lambda: short(a[1], a[2:]), 'long': lambda: long(a[1], a[2])}[a[0]]()
