#!/usr/bin/env python3
"""Makes tune.spc, "Lantern Tide", from tune.asm and from instruments made here by formula.

    make_tune.py [SPCWAVE [DIR]]

SPCWAVE is the built program, crates/spcwave/out/spcwave where none is given: its `encode` makes the sample blocks, and
its `asm` the driver with the score. The samples, as WAV files to listen to and as blocks, go to DIR, or where no DIR is
given to a place that is removed at the end. tune.spc goes beside this file, and to the data of the test that plays it: the
same bytes in each run.
"""
import math
import os
import struct
import subprocess
import sys
import tempfile

TITLE, GAME, ARTIST = b'Lantern Tide', b'spcwave example', b'spcwave'
SECONDS, FADE = 58, 4000        # the last chord is struck at 57.9 s, and at 62.0 s the tune would begin anew
PROGRAM, DIRECTORY, SAMPLES, ECHO = 0x0400, 0x2000, 0x2100, 0x8000
RATE = 32000                    # a sample played at pitch 1000h


# --- formulas ----------------------------------------------------------------------------------------------------

def noise(seed):
    """Numbers from -1 to 1, the same in each run."""
    while True:
        seed = (seed * 1664525 + 1013904223) & 0xffffffff
        yield (seed >> 8) / 0x800000 - 1


def tone(partials, period, count, start=0):
    """A sum of partials (number of the harmonic, amplitude, phase in turns)."""
    return [sum(a * math.sin(2 * math.pi * (h * n / period + turn)) for h, a, turn in partials)
            for n in range(start, start + count)]


def scaled(samples, peak):
    top = max(abs(s) for s in samples)
    return [s * peak / top for s in samples]


# Each instrument gives its attack, played once, and its loop, played for ever; one of the two may be empty.
# A loop is a whole number of waves and a multiple of 16 samples long, and goes on where the attack ends.

def vibrato():
    """One slow wave. Its height is the depth: 320 >> 5 is 10, and 10/1024 is a sixth of a semitone."""
    return [], scaled(tone([(1, 1, 0)], 64, 64), 320)


def flute():
    """Few harmonics; a breath of noise before the tone stands."""
    parts = [(1, 1, 0), (2, .32, .1), (3, .16, .3), (4, .05, .2), (5, .03, .6)]
    length, air, breath = 2048, 0.0, noise(7)
    attack = []
    for n, s in enumerate(tone(parts, 64, length)):
        air += .35 * (next(breath) - air)
        swell = min(1, n / 900)
        attack.append(s * swell + .55 * air * min(1, n / 150) * (1 - n / length) ** 2)
    both = scaled(attack + tone(parts, 64, 256), 22000)
    return both[:length], both[length:]


def harp():
    """Karplus and Strong's plucked string: noise that runs round a line and is smoothed at each turn.

    The smoothing looks one sample back and one ahead, so that the wave stays exactly 64 samples long. At the end the
    string is no longer smoothed: that turn of the line is the loop."""
    pluck = noise(1234)
    line = [next(pluck) for _ in range(64)]
    for _ in range(2):                          # a soft finger
        line = [(line[k - 1] + 2 * line[k] + line[(k + 1) % 64]) / 4 for k in range(64)]
    line = [line[k] - line[k - 11] for k in range(64)]      # plucked at about a sixth of the string
    middle = sum(line) / 64
    string = [s - middle for s in line]
    length, keep = 6144, .84
    while len(string) < length + 64:
        n = len(string)
        before = string[n - 63] if n >= 65 else string[0]
        after = string[n - 65] if n >= 65 else string[63]
        string.append(.9992 * (keep * string[n - 64] + (1 - keep) / 2 * (before + after)))
    string[length:] = string[length - 64:length]
    string = scaled(string, 26000)
    return string[:length], string[length:]


def pad():
    """Three strings a little apart, in one loop that holds 127, 128 and 129 of their waves."""
    turns = noise(99)
    parts = [(h * w, h ** -1.35 * level, next(turns) / 2) for h in range(1, 9)
             for w, level in ((127, .8), (128, 1), (129, .8))]
    return [], scaled(tone(parts, 8192, 8192), 22000)


def bass():
    """A plucked bass: each harmonic fades faster than the one below it."""
    length = 4096
    parts = [(h, 1 / h, .25 if h % 2 else 0) for h in range(1, 14)]
    wave = [0.0] * (length + 128)
    for h, a, turn in parts:
        for n in range(length + 128):
            fall = math.exp(-min(n, length) * h ** 1.2 / 2600)
            wave[n] += a * fall * math.sin(2 * math.pi * (h * n / 128 + turn))
    wave = [s * min(1, n / 48) for n, s in enumerate(wave)]
    wave = scaled(wave, 24000)
    return wave[:length], wave[length:]


def bell():
    """A struck bar: partials at 1, 2.75 and 5.5, each with whole periods in 256 samples."""
    length = 6144
    parts = [(4, 1, 9000), (8, .12, 5000), (11, .42, 2200), (22, .22, 900)]
    wave = [sum(a * math.exp(-min(n, length) / fall) * math.sin(2 * math.pi * h * n / 256) for h, a, fall in parts)
            for n in range(length + 256)]
    wave = scaled(wave, 22000)
    return wave[:length], wave[length:]


def kick():
    """A tone that drops, struck at octave 5, so that these 4096 samples last a quarter of a second."""
    rate, turn, wave, click = RATE / 2, 0.0, [], noise(5)
    for n in range(4096):
        t = n / rate
        turn += (46 + 190 * math.exp(-t / .022)) / rate
        wave.append(math.exp(-t / .075) * math.sin(2 * math.pi * turn) + .25 * next(click) * math.exp(-t / .002))
    end = len(wave)
    return scaled([s * min(1, (end - n) / 400) for n, s in enumerate(wave)], 28000), []


def snare():
    """A short skin and a longer rattle."""
    wave, rattle, last = [], noise(21), 0.0
    for n in range(5120):
        t, new = n / RATE, next(rattle)
        wave.append(.9 * math.exp(-t / .03) * math.sin(2 * math.pi * (190 * t + 1.1 * (1 - math.exp(-t / .02))))
                    + .75 * math.exp(-t / .045) * (new - .55 * last))
        last = new
    end = len(wave)
    return scaled([s * min(1, (end - n) / 800) for n, s in enumerate(wave)], 24000), []


INSTRUMENTS = [vibrato, flute, harp, pad, bass, bell, kick, snare]      # numbers 0 to 7 of the directory


# --- files -------------------------------------------------------------------------------------------------------

def run(*words):
    subprocess.run(words, check=True, stdout=subprocess.DEVNULL)


def write(path, data):
    with open(path, 'wb') as out:
        out.write(data)


def read(path):
    with open(path, 'rb') as file:
        return file.read()


def wave_file(samples):
    data = struct.pack('<%dh' % len(samples), *(round(s) for s in samples))
    form = struct.pack('<IHHIIHH', 16, 1, 1, RATE, 2 * RATE, 2, 16)
    return (b'RIFF' + struct.pack('<I', 36 + len(data)) + b'WAVEfmt ' + form
            + b'data' + struct.pack('<I', len(data)) + data)


def sample(spcwave, place, instrument):
    """The blocks of an instrument, and where its loop begins in them.

    Attack and loop are encoded as one. So the loop's first block may build on the samples before it, as the others
    do; the first block of a file can't, and is too coarse to be heard again and again. A loop without an attack gets
    its own last 64 samples put before it for this."""
    attack, loop = instrument()
    if loop and not attack:
        attack = loop[-64:]
    assert len(attack) % 16 == 0 and len(loop) % 16 == 0
    path = f'{place}/{instrument.__name__}'
    write(path + '.wav', wave_file(attack + loop))
    run(spcwave, 'encode', path + '.wav', path + '.brr', *(['--loop'] if loop else []))
    return read(path + '.brr'), len(attack) // 16 * 9 if loop else 0


def spc_file(memory):
    head = bytearray(0x100)

    def put(at, data, room):
        assert len(data) <= room
        head[at:at + len(data)] = data

    put(0x00, b'SNES-SPC700 Sound File Data v0.30\x1a\x1a', 35)
    put(0x23, b'\x1a\x1e', 2)           # tags are there; minor version 30
    put(0x25, struct.pack('<HBBBBB', PROGRAM, 0, 0, 0, 0, 0xef), 7)
    put(0x2e, TITLE, 32)
    put(0x4e, GAME, 32)
    put(0xa9, b'%d' % SECONDS, 3)
    put(0xac, b'%d' % FADE, 5)
    put(0xb1, ARTIST, 32)
    registers = bytearray(128)
    registers[0x6c] = 0xe0              # reset, mute, no echo writes: the program sets all else
    registers[0x5d], registers[0x6d], registers[0x7d] = DIRECTORY >> 8, ECHO >> 8, 0x0f
    return bytes(head) + bytes(memory) + bytes(registers) + bytes(128)


def main():
    if sys.argv[1:] in (['-h'], ['--help']):
        print(__doc__)
        return
    if len(sys.argv) > 3:
        sys.exit(__doc__)
    here = os.path.dirname(os.path.abspath(__file__))
    built = os.path.join(here, '..', 'crates', 'spcwave', 'out', 'spcwave')
    spcwave = os.path.abspath(sys.argv[1] if len(sys.argv) > 1 else built)
    with tempfile.TemporaryDirectory() as spare:
        place = sys.argv[2] if len(sys.argv) > 2 else spare
        os.makedirs(place, exist_ok=True)
        memory = bytearray(0x10000)
        run(spcwave, 'asm', f'{here}/tune.asm', '%04x' % PROGRAM, f'{place}/tune.bin')
        program = read(f'{place}/tune.bin')
        assert PROGRAM + len(program) <= DIRECTORY
        memory[PROGRAM:PROGRAM + len(program)] = program
        print('program and score: %d bytes from %04xh' % (len(program), PROGRAM))
        at = SAMPLES
        for number, instrument in enumerate(INSTRUMENTS):
            data, loop = sample(spcwave, place, instrument)
            assert at + len(data) <= ECHO
            memory[at:at + len(data)] = data
            struct.pack_into('<HH', memory, DIRECTORY + 4 * number, at, at + loop)
            print('sample %d %-8s %5d bytes from %04xh, loop at %04xh'
                  % (number, instrument.__name__, len(data), at, at + loop))
            at += len(data)
        for folder in (here, f'{here}/../crates/example_tune/data'):
            write(f'{folder}/tune.spc', spc_file(memory))
        print('tune.spc: %d seconds and a fade of %d ms' % (SECONDS, FADE))


if __name__ == '__main__':
    main()
