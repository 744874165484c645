"""What a driver reads of timers, ports and voices, worked out apart from the program: it serves registers.py.

`Machine` has the rules of timers, ports and voices, from Anomie's SPC700 and S-DSP documents and as docs/CONFORMANCE.md says where these
leave something open, and obeys the script of examples/registers.asm with the cycles that each command takes. It does so as
many engines would: with other phases of the timers' ticks, of samples, of key polling and of the counter of rates, accesses earlier within
their instruction, and a sound chip that takes writes and shows its registers some samples later.
"""
import collections
import random

COMMANDS = ('write', 'write_dsp', 'read', 'read_two', 'read_dsp', 'reached_dsp', 'wait', 'await_count', 'await_change', 'play', 'end')
FETCH = 57                      # cycles until a command begins
# Of a command: the cycles from its begin to its access and to its end. `wait` and `await_` take as long as the script says.
CYCLES = {'write': (7, 10), 'write_dsp': (11, 14), 'read': (6, 21), 'read_two': (5, 37), 'read_dsp': (10, 28), 'reached_dsp': (10, 35)}
SAMPLE = 32
PAIR = 974                      # cycles that a pair of volumes lasts, and the mark before them and the silence behind them
MARK_PAIR = 962                 # and one of the marks at the beginning and at the end
TICK = (128, 128, 16)           # of each timer, in cycles
CONTROL, DSP_ADDRESS, PORTS, TARGETS, COUNTERS = 0xF1, 0xF2, 0xF4, 0xFA, 0xFD
KON, KOFF, FLG, ENDX = 0x4C, 0x5C, 0x6C, 0x7C
GIVEN_PORTS = (0xA5, 0x5A, 0xC3, 0x3C)
PERIODS = (0, 2048, 1536, 1280, 1024, 768, 640, 512, 384, 320, 256, 192, 160, 128, 96, 80,
           64, 48, 40, 32, 24, 20, 16, 12, 10, 8, 6, 5, 4, 3, 2, 1)
LONG = 0xE000                   # the long wave, and how many blocks it has
BLOCKS = 64
HEIGHT = 14336                  # of all waves

# The waves: of each its first block, the block of its loop, and its blocks' headers from the first on. All digits of a wave are alike.
STILL, LATE_LOOP, ONCE, FLIPPED = range(4)
LONG_HEADERS = {LONG + 9 * number: 0xB0 for number in range(BLOCKS - 1)} | {LONG + 9 * (BLOCKS - 1): 0xB3}
ONCE_AT = LONG + 9 * BLOCKS
ONCE_HEADERS = {ONCE_AT + 9 * number: 0xB0 for number in range(7)} | {ONCE_AT + 63: 0xB1}
HEADERS = {0x0240: 0xB3, 0x0250: 0xB3} | LONG_HEADERS | ONCE_HEADERS
ENTRIES = {STILL: (0x0240, 0x0240), LATE_LOOP: (LONG + 9 * (BLOCKS - 8), LONG), ONCE: (ONCE_AT, LONG), FLIPPED: (0x0250, 0x0250)}


def pairs(read):
    """How many pairs are played of what a test read."""
    return (len(read) + 1) // 2


class Timer:
    def __init__(self):
        self.on, self.target, self.inner, self.counter = False, 0, 0, 0

    def ticks(self, count):
        """So many ticks; where the inner counter then equals the target, 0 meaning 256, it begins anew and the counter rises."""
        while self.on and count:
            left = (self.target - self.inner - 1) % 256 + 1
            passed = min(left, count)
            self.inner, count = (self.inner + passed) % 256, count - passed
            if passed == left:
                self.inner, self.counter = 0, (self.counter + 1) % 16

    def read(self):
        counter, self.counter = self.counter, 0
        return counter

    def switch(self, on):
        if on and not self.on:
            self.inner, self.counter = 0, 0
        self.on = on


class Voice:
    """What a voice shows of itself: the level of its envelope, its output, and when it comes to its wave's end."""

    def __init__(self):
        self.mode, self.level, self.hidden, self.delay = 'release', 0, 0, 0
        self.block, self.offset, self.position = 0, 1, 0

    def envelope(self, registers, fires):
        adsr1, adsr2, gain = registers[5], registers[6], registers[7]
        if self.mode == 'release':
            self.level = max(self.level - 8, 0)
            return
        last = self.level - 1
        sustain = adsr2 >> 5
        if adsr1 & 0x80:
            if self.mode == 'attack':
                rate = 2 * (adsr1 & 15) + 1
                new = self.level + (0x400 if rate == 31 else 0x20)
            else:
                rate = 2 * (adsr1 >> 4 & 7) + 16 if self.mode == 'decay' else adsr2 & 31
                new = last - (last >> 8)
        else:
            sustain = gain >> 5
            rate, how = (31, 0) if gain < 0x80 else (gain & 31, gain >> 5)
            bent = 8 if self.hidden >= 0x600 else 0x20
            new = {0: gain * 16, 4: self.level - 0x20, 5: last - (last >> 8), 6: self.level + 0x20, 7: self.level + bent}[how]
        if self.mode == 'decay' and new >> 8 == sustain:
            self.mode = 'sustain'
        self.hidden = new
        if not 0 <= new <= 0x7FF:
            new = min(max(new, 0), 0x7FF)
            self.mode = 'decay' if self.mode == 'attack' else self.mode
        if fires(rate):
            self.level = new

    def sample(self, registers, flags, fires):
        """A sample, given its registers and whether it is reset, polled, keyed off and keyed on: ENVX, OUTX and whether it came to an end."""
        reset, poll, off, on = flags
        source, pitch = registers[4], (registers[2] | registers[3] << 8) & 0x3FFF
        header = HEADERS.get(self.block, 0)
        if self.delay:
            if self.delay == 5:
                self.block, self.offset, header = ENTRIES[source][0], 1, 0
            self.level = self.hidden = 0
            self.delay -= 1
            self.position, pitch = (0x4000 if self.delay % 4 else 0), 0
        out = ((-HEIGHT if source == FLIPPED else HEIGHT) * self.level >> 11) & ~1
        shown = self.level >> 4, out >> 8 & 0xFF
        if reset or header & 3 == 1:
            self.mode, self.level = 'release', 0
        if poll and off:
            self.mode = 'release'
        if poll and on:
            self.delay, self.mode = 5, 'attack'
        if not self.delay:
            self.envelope(registers, fires)
        ended = False
        if self.position >= 0x4000:
            self.offset += 2
            if self.offset == 9:
                self.offset, ended = 1, header & 1
                self.block = ENTRIES[source][1] if ended else self.block + 9
        self.position = min((self.position & 0x3FFF) + pitch, 0x7FFF)
        return (*shown, bool(ended))


class Chip:
    """The S-DSP as the driver sees it. Voice 0, which plays, shows nothing of itself here: its pitch is 0."""

    def __init__(self, engine):
        self.registers, self.queue = bytearray(128), []
        self.history = collections.deque(maxlen=engine.reads_late + 1)         # of the registers, the last one that of now
        self.voices = {1: Voice(), 2: Voice()}
        self.pending, self.latched, self.keyed = 0, 0, 0        # KON as written; what was latched of it at the last poll, and ever
        self.made, self.counter = engine.parity, engine.counter
        self.reads_late, self.writes_late = engine.reads_late, engine.writes_late

    def write(self, address, value):
        if address < 128:
            self.queue.append((self.made + self.writes_late, address, value))

    def do_writes(self):
        while self.queue and self.queue[0][0] <= self.made:
            _, address, value = self.queue.pop(0)
            self.registers[address] = 0 if address == ENDX else value
            if address == KON:
                self.pending = value

    def read(self, address):
        """Own registers of a voice and ENDX are seen late; what the driver wrote is there at once."""
        address &= 127
        if address == ENDX or address & 15 in (8, 9):
            self.do_writes()
            shown = self.history[0] if self.history else self.registers
            return shown[address]
        written = [value for _, at, value in self.queue if at == address]
        return written[-1] if written else self.registers[address]

    def sample(self):
        self.do_writes()
        registers, poll = self.registers, self.made % 2 == 0
        if poll:
            self.pending &= ~self.latched
            self.latched = self.pending
            self.keyed |= self.latched
        self.counter = (self.counter - 1) % 30720
        ends = keyed = 0
        for number, voice in self.voices.items():
            at, bit = 16 * number, 1 << number
            if not self.keyed & bit:
                continue
            flags = registers[FLG] & 0x80, poll, registers[KOFF] & bit, self.latched & bit
            shown = voice.sample(registers[at:at + 10], flags, lambda rate: rate and self.counter % PERIODS[rate] == 0)
            registers[at + 8], registers[at + 9] = shown[:2]
            ends |= bit * shown[2]
            keyed |= bit * bool(poll and self.latched & bit)
        registers[ENDX] = (registers[ENDX] | ends) & ~keyed
        if self.reads_late:
            self.history.append(bytes(registers))
        self.made += 1


class Engine:
    """What may differ between engines."""

    def __init__(self, number):
        picked = random.Random(number)
        self.phase = 9 * number % 128                   # of the cycles behind a tick of all timers
        self.parity, self.counter = number & 1, picked.randrange(30720)
        self.store_early = (0, 2)[number >> 1 & 1]      # by how many cycles a store comes before its instruction's end
        self.reads_late, self.writes_late = ((0, 0), (3, 0), (0, 3), (2, 2))[number >> 2 & 3]


ENGINES = [Engine(number) for number in range(16)]


class Machine:
    """Obeys a script; what it reads, test by test."""

    def __init__(self, engine):
        self.engine, self.clock = engine, engine.phase
        self.timers, self.chip = [Timer() for _ in range(3)], Chip(engine)
        self.cells, self.ports, self.address = {}, list(GIVEN_PORTS), 0
        self.read_bytes, self.tests_read = [], []

    def passes(self, cycles):
        before, self.clock = self.clock, self.clock + cycles
        for timer, tick in zip(self.timers, TICK):
            timer.ticks(self.clock // tick - before // tick)
        for _ in range(self.clock // SAMPLE - before // SAMPLE):
            self.chip.sample()

    def write(self, address, value):
        self.cells[address] = value
        if address == CONTROL:
            for number, timer in enumerate(self.timers):
                timer.switch(bool(value >> number & 1))
            for bit, pair in ((0x10, (0, 1)), (0x20, (2, 3))):
                for port in pair if value & bit else ():
                    self.ports[port] = 0
        elif address == DSP_ADDRESS:
            self.address = value
        elif TARGETS <= address < COUNTERS:
            self.timers[address - TARGETS].target = value

    def read(self, address):
        if address >= COUNTERS:
            return self.timers[address - COUNTERS].read()
        if PORTS <= address < PORTS + 4:
            return self.ports[address - PORTS]
        if address == DSP_ADDRESS:
            return self.address
        return self.cells.get(address, 0) if address in (0xF8, 0xF9) else 0

    def polls(self, cycles, ask):
        """Reads until it is answered, with these cycles between one read and the next, in turn."""
        for number in range(20000):
            if ask():
                break
            self.passes(cycles[number % len(cycles)])
        self.passes(7)

    def obey(self, name, first, second):
        self.passes(FETCH)
        if name in CYCLES:
            access, end = CYCLES[name]
            access -= self.engine.store_early if name.startswith('write') else 0
            self.passes(access)
            if name.endswith('_dsp'):
                self.address = first
            if name == 'write':
                self.write(first, second)
            elif name == 'write_dsp':
                self.chip.write(first, second)
            elif name == 'read_two':
                self.read_bytes += [self.read(COUNTERS), self.read(COUNTERS + 1)]
            else:
                byte = self.read(first) if name == 'read' else self.chip.read(first)
                self.read_bytes.append(int(byte >= second) if name == 'reached_dsp' else byte)
            self.passes(end - access)
        elif name == 'wait':
            self.passes(16 * (first | second << 8) + 1)
        elif name == 'await_count':
            self.passes(6)
            self.read(first)
            self.passes(5)
            self.polls((5, 5, 5, 11), lambda: self.read(first))
        elif name == 'await_change':
            self.passes(14)
            self.polls((11,), lambda: self.chip.read(first) != second)
        elif name == 'play':
            self.passes(PAIR * (pairs(self.read_bytes) + 2))
            self.tests_read.append(self.read_bytes)
            self.read_bytes = []
