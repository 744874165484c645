"""Reads recordings of the files that tools/processor.py and tools/registers.py make, at any rate and level, with silence before them."""
import array
import collections
import sys
import typing
import wave

import processor
import register_rules

RATE = 32000
CYCLES_PER_SAMPLE = 32          # of the processor
THRESHOLD = 0.25                # of the peak: the marks are above it, silence is below


def read(path):
    """Both sides of a recording of 16 bits, and its rate."""
    try:
        sound = wave.open(path)
    except (OSError, EOFError, wave.Error) as error:
        raise SystemExit('%s: %s' % (path, error)) from None
    with sound:
        if sound.getsampwidth() != 2 or sound.getnchannels() != 2:
            raise SystemExit('%s: a recording has two sides of 16 bits' % path)
        numbers, rate = array.array('h', sound.readframes(sound.getnframes())), sound.getframerate()
    if sys.byteorder == 'big':
        numbers.byteswap()
    return numbers[0::2], numbers[1::2], rate


class Recording:
    """A recording whose marks are found: which frame is a sample of the file, and how much of it a volume of 1 gives."""

    def __init__(self, path, slots):
        self.left, self.right, rate = read(path)
        peak = max(map(abs, self.left), default=0)
        if peak < 1000:
            raise SystemExit('%s: nothing is heard' % path)
        self.start = next(at for at, level in enumerate(self.left) if abs(level) > THRESHOLD * peak)
        self.end = next(at for at in range(len(self.left) - 1, 0, -1) if abs(self.left[at]) > THRESHOLD * peak)
        self.first, last = slots[0][0], slots[-1][0]
        self.step = (self.end - self.start) / (last - self.first)
        self.stretch = self.step * RATE / rate - 1
        self.left_unit, self.right_unit = (self.unit(side, slots) for side in (self.left, self.right))
        if min(abs(self.left_unit), abs(self.right_unit)) < 1:
            raise SystemExit('%s: the mark at its beginning is not heard on both sides' % path)
        if abs(self.stretch) > 0.05 or abs(self.unit(self.left, slots[-processor.MARK:]) / self.left_unit - 1) > 0.05:
            # It has no mark at its end: the rate is that of its header.
            self.step, self.stretch = rate / RATE, 0
            self.left_unit, self.right_unit = (self.unit(side, slots) for side in (self.left, self.right))

    def level(self, side, slot, following):
        """The level in the middle of a pair's time."""
        middle = self.start + self.step * ((slot[0] + following[0]) / 2 + 1 - self.first)
        reach = 3 * self.step
        heard = side[round(middle - reach):round(middle + reach) + 1]
        return sum(heard) / len(heard) if heard else 0

    def has(self, slot):
        """Whether a pair lies before its end."""
        return self.start + self.step * (slot[0] - self.first) < self.end

    def unit(self, side, slots):
        """What a volume of 1 gives, by a mark."""
        return sum(self.level(side, slots[at], slots[at + 1]) * (1, -1)[at % 2] for at in range(8)) / 8 / 127

    def bytes_of(self, slot, following):
        return [round(self.level(side, slot, following) / unit) & 0xFF
                for side, unit in ((self.left, self.left_unit), (self.right, self.right_unit))]


def named(test):
    a, x, y, psw, sp, *code = bytes.fromhex(test)[:8]
    return 'A=%02x X=%02x Y=%02x PSW=%02x SP=%02x, code %02x %02x %02x' % (a, x, y, psw, sp, *code)


def heard_tests(recording, tests, slots):
    """How many tests are heard to their end."""
    return sum(recording.has(slots[processor.MARK + 4 * number + 4]) for number in range(len(tests)))


def differences(recording, tests, slots):
    """By opcode and word: each test's number, the byte that was expected and the one that was heard."""
    found = collections.defaultdict(list)
    for number, test in enumerate(tests[:heard_tests(recording, tests, slots)]):
        at = processor.MARK + 4 * number
        expected = [byte for slot in slots[at:at + 4] for byte in slot[1:]]
        # A pair lasts as long as the first of its test; what follows the last one is the next test.
        length = slots[at + 1][0] - slots[at][0]
        heard = [byte for slot in slots[at:at + 4] for byte in recording.bytes_of(slot, (slot[0] + length,))]
        for word, one, other in zip(processor.WORDS, expected, heard):
            if one != other:
                found[int(test[10:12], 16), word].append((number, one, other))
    return found


def late(recording, slot, following):
    """By how many samples the right side comes late from a pair to the next; None where they are too near for that."""
    before, after = (processor.signed(pair[2]) * recording.right_unit for pair in (slot, following))
    if abs(slot[2] - following[2]) < 32 or abs(after - before) < 32 * abs(recording.right_unit):
        return None
    middle, place = (before + after) / 2, recording.start + recording.step * (following[0] - recording.first)
    for at in range(int(place - 8 * recording.step), int(place + 8 * recording.step)):
        one, other = recording.right[at] - middle, recording.right[at + 1] - middle
        if one * (after - before) < 0 <= other * (after - before):
            return (at + one / (one - other) - place) / recording.step
    return None


def lengths(recording, tests, slots):
    """The opcodes whose instructions seem to last longer or shorter, with about how many cycles a test.

    An instruction that lasts a cycle more makes all that follows a cycle late, test after test. So the mean lateness of the
    tests of the opcode after it is that of the opcode before it, and a cycle for each of its tests. What a recording's own clock
    adds is the same for all opcodes, and is taken off.
    """
    lags = collections.defaultdict(list)
    heard = tests[:heard_tests(recording, tests, slots)]
    for number, test in enumerate(heard):
        at = processor.MARK + 4 * number
        found = (late(recording, slots[pair], slots[pair + 1]) for pair in range(at, at + 3))
        lags[int(test[10:12], 16)] += [lag for lag in found if lag is not None]
    opcodes = [opcode for opcode in sorted(lags) if lags[opcode]]
    means = [sum(lags[opcode]) / len(lags[opcode]) for opcode in opcodes]
    if len(opcodes) < 3:
        return {}
    jumps = [means[at + 1] - means[at - 1] for at in range(1, len(means) - 1)]
    usual, cycle = sorted(jumps)[len(jumps) // 2], len(heard) / len(opcodes) / CYCLES_PER_SAMPLE
    jumps = [0] + [(jump - usual) / cycle for jump in jumps] + [0]
    return {opcodes[at]: jumps[at] for at in range(1, len(jumps) - 1)
            if abs(jumps[at]) > 0.6 and abs(jumps[at]) >= max(abs(jumps[at - 1]), abs(jumps[at + 1]))}


class Found(typing.NamedTuple):
    """What a recording has otherwise."""
    values: dict                # by opcode and word the tests that differ
    lengths: dict               # by opcode the cycles that its instruction lasts longer
    stretch: float              # how much longer the whole lasts, as a part of its length; 0 where less than half a percent
    all_heard: bool


def compare(path, file):
    """Prints what differs, opcode by opcode."""
    recording = Recording(path, file['slots'])
    found = differences(recording, file['tests'], file['slots'])
    print('%s: %d of %d tests are heard, and %d opcodes differ' % (
        path, heard_tests(recording, file['tests'], file['slots']), len(file['tests']), len({opcode for opcode, _ in found})))
    for (opcode, word), tests in sorted(found.items()):
        number, expected, heard = tests[0]
        print('  %02x %-11s %3d tests; first %d: %s; expected %02x, heard %02x'
              % (opcode, word, len(tests), number, named(file['tests'][number]), expected, heard))
    longer = lengths(recording, file['tests'], file['slots'])
    for opcode, cycles in longer.items():
        print('  %02x lasts about %.1f cycles %s a test' % (opcode, abs(cycles), 'more' if cycles > 0 else 'less'))
    stretch = recording.stretch if abs(recording.stretch) > 0.005 else 0
    if stretch:
        print('  the whole lasts %.1f %% %s: an instruction of the driver does, or the recording has another rate than its header has'
              % (100 * abs(stretch), 'longer' if stretch > 0 else 'shorter'))
    return Found(found, longer, stretch, heard_tests(recording, file['tests'], file['slots']) == len(file['tests']))


class Reads:
    """A recording of a file of tools/registers.py: a mark shows where it begins, and one more where the bytes of each test begin."""

    def __init__(self, path):
        self.left, self.right, rate = read(path)
        self.frames = rate / RATE / CYCLES_PER_SAMPLE       # of a cycle
        peak = max(map(abs, self.left), default=0)
        if peak < 1000:
            raise SystemExit('%s: nothing is heard' % path)
        self.place = next(at for at, level in enumerate(self.left) if abs(level) > THRESHOLD * peak)
        self.units = [sum(self.level(side, (at + 0.5) * register_rules.MARK_PAIR) * (1, -1)[at % 2] for at in range(8)) / 8 / 127
                      for side in (self.left, self.right)]
        if min(map(abs, self.units)) < 1:
            raise SystemExit('%s: the mark at its beginning is not heard on both sides' % path)
        self.place += round(9 * register_rules.MARK_PAIR * self.frames)

    def level(self, side, cycles):
        """The level of about three samples around so many cycles after the current position."""
        middle, reach = self.place + cycles * self.frames, 3 * CYCLES_PER_SAMPLE * self.frames
        heard = side[round(middle - reach):round(middle + reach) + 1]
        return sum(heard) / len(heard) if heard else 0

    def test(self, count):
        """So many bytes of the test that comes next; None where no more is heard."""
        threshold = 0.5 * 127 * abs(self.units[0])
        self.place = next((at for at in range(self.place, len(self.left)) if abs(self.left[at]) > threshold), None)
        if self.place is None:
            return None
        heard = [round(self.level(side, (pair + 1.5) * register_rules.PAIR) / unit) & 0xFF
                 for pair in range(register_rules.pairs(range(count))) for side, unit in zip((self.left, self.right), self.units)]
        self.place += round((register_rules.pairs(range(count)) + 1.5) * register_rules.PAIR * self.frames)
        return heard[:count]


class Heard(typing.NamedTuple):
    """What a recording of a file of tools/registers.py has otherwise."""
    values: dict                # by the names of the tests that differ: the bytes that were expected, and those that were heard
    all_heard: bool


def compare_reads(path, file):
    """Prints what differs, test by test."""
    recording, values, count = Reads(path), {}, 0
    for name, expected in zip(file['names'], file['expected']):
        heard = recording.test(len(expected))
        if heard is None:
            break
        count += 1
        if heard != expected:
            values[name] = expected, heard
    print('%s: %d of %d tests are heard, and %d differ' % (path, count, len(file['names']), len(values)))
    for name, both in values.items():
        print('  %s: expected %s, heard %s' % (name, *(' '.join('%02x' % byte for byte in some) for some in both)))
    if count < len(file['names']):
        print('  from here on nothing is heard: %s' % file['names'][count])
    return Heard(values, count == len(file['names']))
