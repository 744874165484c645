#!/usr/bin/env python3
"""Prints where what was built lies: tools/built.py program|library|page|libgme

It prints the folder: crates/spcwave/out of the program and crates/player_c/out of the library, which tools/build has built, web/site of the page, which
web/build makes of the library, and out/libgme of the libgme of extras/libgme/build. Where it isn't built yet, or the sources have changed since, it says so
in place of that, and its status is 1. With --record before it, web/build and extras/libgme/build record that theirs is made of the sources of now.
"""
import hashlib
import json
import pathlib
import shutil
import sys

TOP = pathlib.Path(__file__).resolve().parent.parent
CRATES = {'program': 'spcwave', 'library': 'player_c'}
FILES = {'program': ['spcwave'], 'library': ['libspcwave.a', 'libspcwave.so.1', 'libspcwave.bc'],
         'page': ['spcwave.wasm'], 'libgme': ['libgme.so.0']}
RECORD = 'built.json'

# What scripts make of the library: which one, where it lies, and what it is made of besides.
OF_LIBRARY = {'page': ('web/build', 'web/site',
                       ['web/build', 'web/translate.py', 'web/page', 'web/wasm', 'include', 'examples/gauss.table', 'examples/tune.spc']),
              'libgme': ('extras/libgme/build', 'out/libgme', ['extras/libgme', 'include'])}

# The names that the shared library gives to programs, and the version by which they differ from later ones.
SYMBOLS = 'SPCWAVE_1.2 { global: spcwave_*; local: *; };\n'


def lines_of_table():
    """The lines of crates.txt, each with its crate and those that it stands on."""
    lines = [line.partition('#')[0].strip() for line in (TOP / 'crates.txt').read_text().splitlines()]
    return [(line.partition(':')[0].split()[0], line.partition(':')[2].split(), line) for line in lines if line]


def all_below(crate, table):
    """The crates of this repository that one stands on, and itself."""
    return {crate}.union(*[all_below(name, table) for name in table[crate] if name in table])


def kit():
    """The folder of the Rattle toolchain."""
    return pathlib.Path(shutil.which('rt')).resolve().parent.parent


def place_of(product):
    return TOP / OF_LIBRARY[product][1] if product in OF_LIBRARY else TOP / 'crates' / CRATES[product] / 'out'


def record_of(product):
    """The record of what a product was made of: beside it, but beside the folder of the page, which has nothing but that."""
    return TOP / 'web' / RECORD if product == 'page' else place_of(product) / RECORD


def sources_of(product):
    """The files of this repository that a product is made of, in order."""
    if product in OF_LIBRARY:
        named = [TOP / name for name in OF_LIBRARY[product][2]]
        files = [file for path in named for file in ([path] if path.is_file() else sorted(path.iterdir())) if file.is_file() and file.name != 'test']
        return sources_of('library') + files
    table = {crate: below for crate, below, _ in lines_of_table()}
    folders = [TOP / 'crates' / crate for crate in sorted(all_below(CRATES[product], table))]
    return [path for folder in folders for path in sorted(folder.rglob('*'))
            if path.suffix in ('.rt', '.antt') and 'out' not in path.relative_to(folder).parts]


def sum_of_sources(product):
    """A sum of all that a product is made of in this repository."""
    whole = hashlib.sha256(SYMBOLS.encode())
    for path in sources_of(product):
        whole.update(str(path.relative_to(TOP)).encode() + b'\0' + path.read_bytes() + b'\0')
    return whole.hexdigest()


def write_record(product):
    record_of(product).write_text(json.dumps({'sources': sum_of_sources(product)}) + '\n')


def missing(product):
    """Why a product can't be taken; '' where it can."""
    record, how = record_of(product), 'run ' + (OF_LIBRARY[product][0] if product in OF_LIBRARY else 'tools/build --only ' + product)
    if not record.exists() or not all((place_of(product) / name).exists() for name in FILES[product]):
        return 'the %s is not built: %s' % (product, how)
    if json.loads(record.read_text())['sources'] != sum_of_sources(product):
        return 'the sources have changed since the %s was built: %s' % (product, how)
    return ''


def main():
    words = sys.argv[1:]
    if words in (['-h'], ['--help']):
        print(__doc__)
    elif len(words) == 2 and words[0] == '--record' and words[1] in OF_LIBRARY:
        write_record(words[1])
    elif len(words) != 1 or words[0] not in FILES:
        sys.exit('tools/built.py: it takes one word, program, library, page or libgme')
    elif missing(words[0]):
        sys.exit('tools/built.py: ' + missing(words[0]))
    else:
        print(place_of(words[0]))


if __name__ == '__main__':
    main()
