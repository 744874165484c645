#!/usr/bin/env python3
"""Makes gauss.table, the console's own table of weights: gauss_table.py [OUT].

The table is 512 numbers of 16 bits, low byte first. The weights follow a windowed sine; the four that interpolate one
position are scaled so that they sum to 2048. They equal, number for number, those inside libgme. OUT is gauss.table
beside this file where none is given.
"""
import math
import os
import struct
import sys


def sine_under_window(number):
    """The weight of this number, before it is scaled."""
    k = number + 0.5
    sine = math.sin(math.pi * k * 1.280 / 1024)
    window = 1 + (math.cos(math.pi * k * 2 / 1023) - 1) * 0.50 + (math.cos(math.pi * k * 4 / 1023) - 1) * 0.08
    return sine * window / k


def table():
    raw = [sine_under_window(511 - place) for place in range(512)]
    weights = [0] * 512
    for position in range(128):
        four = (position, position + 256, 511 - position, 255 - position)
        scale = 2048 / sum(raw[place] for place in four)
        for place in four:
            weights[place] = int(raw[place] * scale + 0.5)
    return weights


def main():
    if sys.argv[1:] in (['-h'], ['--help']):
        print(__doc__)
        return
    if len(sys.argv) > 2:
        sys.exit(__doc__)
    beside = os.path.join(os.path.dirname(os.path.abspath(__file__)), 'gauss.table')
    with open(sys.argv[1] if len(sys.argv) > 1 else beside, 'wb') as out:
        out.write(struct.pack('<512h', *table()))


if __name__ == '__main__':
    main()
