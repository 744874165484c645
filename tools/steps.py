"""Single steps of `spc700_exec` over plain memory, which the scripts beside this file share.

A program is made, on a copy of the crates, that makes each step and prints what it leaves and what it asks of the bus, call by
call (`rt try`: the code of the proved crate, built without its proofs and with checks as it runs). It is built once, and gets the
steps in parts; it has one memory, and puts back after each step what that has changed.
"""
import os
import re
import shutil
import subprocess
import sys
import tempfile
import time

import runs

PROGRAM = os.path.join(runs.TOP, 'tools', 'vectors_data', 'step_program.txt')
PART = 4000                     # steps: what they print stays below the MiB that a run may print
SECONDS = 100                   # of a part, which takes a few


def given_line(registers, cells):
    """What the program is given of a step: pc, a, x, y, sp, psw, clock and halted, and the bytes of memory by their addresses."""
    return ' '.join(map(str, [*registers, *(number for cell in cells.items() for number in cell)]))


def write_crates(folder):
    """A copy of the crates with the program that makes steps; where that crate is."""
    shutil.copytree(os.path.join(runs.TOP, 'crates'), os.path.join(folder, 'crates'), ignore=shutil.ignore_patterns('out'))
    shutil.copy(os.path.join(runs.TOP, 'HANDLES'), folder)
    table = runs.read(os.path.join(runs.TOP, 'crates.txt'))
    runs.write(os.path.join(folder, 'crates.txt'), table + b'step_rows: aram_core spc700_exec\n')
    crate = os.path.join(folder, 'crates', 'step_rows')
    os.makedirs(os.path.join(crate, 'src'))
    runs.write(os.path.join(crate, 'src', 'main.rt'), runs.read(PROGRAM))
    return crate


def minutes(seconds):
    return '%d:%02d' % divmod(round(seconds), 60)


class Progress:
    """Shows how many steps are made and about how long the others take, on standard error where somebody may look."""

    def __init__(self, count):
        self.count, self.start, self.shown = count, None, 0

    def show(self, made):
        now = time.monotonic()
        if self.start is None:          # the first part is there: the program is built
            self.start = now, made
        elif made < self.count and now - self.shown > 10 and made > self.start[1]:
            left = (self.count - made) * (now - self.start[0]) / (made - self.start[1])
            print('%d of %d steps, about %s more' % (made, self.count, minutes(left)), file=sys.stderr, flush=True)
            self.shown = now


def is_step(line):
    return line.count('|') == 2


def run(lines, memory=0):
    """Makes the program, and runs it on the lines; the lines that it prints. Ends with what `rt` said where some are missing.

    Bytes that a line doesn't give are those of a memory that is drawn by a number; by 0 they are 0."""
    with tempfile.TemporaryDirectory() as folder:
        crate, parts = write_crates(folder), os.path.join(folder, 'parts')
        os.makedirs(parts)
        for at in range(0, len(lines), PART):
            runs.write(os.path.join(parts, '%06d' % (at // PART)), '\n'.join([str(memory)] + lines[at:at + PART]).encode() + b'\n')
        lines_made, progress = [], Progress(len(lines))
        # One step of the interpreter: only what is built with checks answers.
        words = ['rt', 'try', '--steps', '1', '--seconds', str(SECONDS), '--cases', parts]
        with open(os.path.join(folder, 'said'), 'w+', encoding='utf-8') as said:
            with subprocess.Popen(words, cwd=crate, stdout=subprocess.PIPE, stderr=said, text=True) as made:
                for line in made.stdout:
                    if is_step(line):
                        lines_made.append(line.rstrip('\n'))
                    elif line.startswith('== '):
                        progress.show(len(lines_made))
            said.seek(0)
            if len(lines_made) != len(lines):
                wrong = [line for line in said if not re.match(r'case=.* run=ended status=0 ', line)]
                sys.exit('%d of %d steps were made:\n%s' % (len(lines_made), len(lines), ''.join(wrong)))
        return lines_made
