"""Runs of the built program that the scripts beside this file share: its commands, what a run leaves, and one refused call."""
import argparse
import ctypes
import ctypes.util
import os
import subprocess

TOP = os.path.dirname(os.path.dirname(os.path.abspath(__file__)))
EXAMPLES = os.path.join(TOP, 'examples')

# A command's name in tables, its words, and its outputs. The inputs are made by `make_inputs`.
COMMANDS = [
    ('render', ['render', 'tune.spc', 'gauss.table', 'OUT', '--samples', '300', '--trace', 'TRACE', '--voices', 'ff']),
    ('info', ['info', 'tune.spc']),
    ('brr', ['brr', 'in.brr', 'OUT']),
    ('encode', ['encode', 'in.wav', 'OUT', '--loop-at', '0', '--search', '2']),
    ('demo', ['demo', '7', 'OUT']),
    ('check', ['check', '7']),
    ('asm', ['asm', 'tune.asm', '0400', 'OUT']),
    ('dis', ['dis', 'in.brr', '0400', 'OUT']),
    ('rip', ['rip', 'tune.spc', 'RIP']),
    ('cuts', ['cuts', 'tune.spc', 'gauss.table', 'LIST', 'OUT']),
    ('serve', ['serve', 'tune.spc', 'gauss.table', 'SCRIPT', 'OUT', '--pages', '300']),
    ('help', ['help']),
    ('version', ['version']),
]


def program_of(description):
    """The built program that the command line names."""
    parser = argparse.ArgumentParser(description=description, formatter_class=argparse.RawDescriptionHelpFormatter)
    parser.add_argument('program', nargs='?', default=os.path.join(TOP, 'crates', 'spcwave', 'out', 'spcwave'))
    return os.path.abspath(parser.parse_args().program)


# Where Debian has libgme, which another one over libspcwave may be found before (extras/libgme).
DEBIANS_LIBGME = '/usr/lib/x86_64-linux-gnu/libgme.so.0'


def system_libgme():
    """The system's own libgme; None where there is none."""
    found = ctypes.util.find_library('gme')
    if found and hasattr(ctypes.CDLL(found), 'spcwave_drop_in'):
        return DEBIANS_LIBGME if os.path.exists(DEBIANS_LIBGME) else None
    return found


def read(path):
    with open(path, 'rb') as file:
        return file.read()


def write(path, data):
    with open(path, 'wb') as file:
        file.write(data)


def make_inputs(program, folder):
    """The inputs of all commands."""
    for name in ('tune.spc', 'tune.asm', 'gauss.table', 'straight.table'):
        write(os.path.join(folder, name), read(os.path.join(EXAMPLES, name)))
    write(os.path.join(folder, 'LIST'), b'300 100\n0 30\n350 20\n')
    write(os.path.join(folder, 'SCRIPT'), b'seek 300\nmark\nplay 100\nseek 300\nplay 50\ndrop 300\nfree\n')
    tune = read(os.path.join(EXAMPLES, 'tune.spc'))
    place = 0x100 + int.from_bytes(tune[0x100 + 0x2004:0x100 + 0x2006], 'little')
    write(os.path.join(folder, 'in.brr'), tune[place:place + 9 * 40])
    subprocess.run([program, 'brr', 'in.brr', 'in.wav'], cwd=folder, check=True, stdout=subprocess.DEVNULL)


def known_commands(program, folder):
    """The commands that this build of the program has."""
    known = []
    for name, words in COMMANDS:
        if subprocess.run([program, *words], cwd=folder, capture_output=True).returncode == 1:
            print(f'{name}: this build does not have it')
        else:
            known.append((name, words))
    clear(folder)
    return known


def is_output(name):
    return name.startswith(('OUT', 'TRACE', 'RIP'))


def clear(folder):
    for name in os.listdir(folder):
        if is_output(name):
            os.remove(os.path.join(folder, name))


class End:
    """How a run ended: its status, report, complaint and outputs by name."""

    def __init__(self, status, report, complaint, outputs, refused=False):
        self.status, self.report, self.complaint, self.outputs = status, report, complaint, outputs
        self.refused = refused

    def same(self, other):
        return (self.status, self.report, self.complaint, self.outputs) \
            == (other.status, other.report, other.complaint, other.outputs)

    def leaves_nothing(self):
        return not self.report and not self.outputs

    def is_part_of(self, whole):
        """Whether all that it left is the beginning of what the whole run left."""
        return whole.report.startswith(self.report) \
            and all(whole.outputs.get(name, b'').startswith(data) for name, data in self.outputs.items())

    def __str__(self):
        left = ', '.join(f'{name} {len(data)}' for name, data in sorted(self.outputs.items()))
        return f'status {self.status}, report {len(self.report)}, complaint {self.complaint!r}, outputs {left or "none"}'


def outputs_in(folder):
    return {name: read(os.path.join(folder, name)) for name in os.listdir(folder) if is_output(name)}


def run(program, words, folder, **how):
    """Runs the words in a folder without outputs."""
    clear(folder)
    ended = subprocess.run([program, *words], cwd=folder, capture_output=True, timeout=120, **how)
    return End(ended.returncode, ended.stdout, ended.stderr, outputs_in(folder))


class Refusing:
    """Runs with one call refused, by the library of refusing.c, which cc makes."""

    def __init__(self, folder):
        self.library = os.path.join(folder, 'refusing.so')
        source = os.path.join(TOP, 'tools', 'refusing.c')
        subprocess.run(['cc', '-O1', '-shared', '-fPIC', '-o', self.library, source], check=True)

    def run(self, program, words, folder, kind, number):
        reading, writing = os.pipe()
        added = {'LD_PRELOAD': self.library, 'REFUSE': f'{kind}:{number}', 'REFUSE_NOTE': str(writing)}
        end = run(program, words, folder, env={**os.environ, **added}, pass_fds=(writing,))
        os.close(writing)
        end.refused = bool(os.read(reading, 1))
        os.close(reading)
        return end
