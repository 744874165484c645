"""SPC files that read timers, ports and the registers of voices, and play what they read; examples/registers.asm is their driver.

The expected sound is computed by register_rules.py, and the program only assembles the driver. A byte that isn't the same on all
engines is no test.
"""
import os
import struct
import subprocess
import tempfile

import register_rules as rules
import runs
from register_rules import (CONTROL, COUNTERS, DSP_ADDRESS, ENDX, FLG, GIVEN_PORTS, KOFF, KON, PERIODS, PORTS, SAMPLE, TARGETS, TICK,
                            FLIPPED, LATE_LOOP, ONCE, STILL)

DRIVER, DIRECTORY, SCRIPT = 0x0400, 0x0200, 0x1000


class Test:
    """Commands of the script, and the bytes that they are to read. It knows at which cycle each access happens, counted from
    what it awaited last or from a key on; where `at` is given, the access is to happen at that cycle."""

    def __init__(self, name):
        self.name, self.commands, self.now, self.wanted = name, [], 0, []

    def command(self, name, first=0, second=0):
        """Adds a command; the cycle of its access."""
        access, end = rules.CYCLES.get(name, (0, 0))
        at = self.now + rules.FETCH + access
        self.now += rules.FETCH + (16 * (first | second << 8) + 1 if name == 'wait' else end)
        self.commands.append((name, first, second))
        return at

    def until(self, cycle, name):
        """Passes time so that the access of the command that comes next happens at a cycle, or one or two beside it: by stores that
        do nothing else, 67 cycles each, and by a wait of 58 cycles and 16 more for each of its times."""
        left = cycle - self.now - rules.FETCH - rules.CYCLES[name][0]
        stores_and_times = []
        for stores in range(16):
            rest = left - 67 * stores
            stores_and_times.append((abs(rest), stores, 0))
            times = (rest - 58 + 8) // 16
            if times > 0:
                stores_and_times.append((abs(rest - 58 - 16 * times), stores, times))
        beside, stores, times = min(stores_and_times)
        assert beside <= 2 and times <= 0xFFFF, (self.name, cycle, self.now, beside)
        for _ in range(stores):
            self.command('write', 0xF9, 0)
        if times:
            self.command('wait', times & 0xFF, times >> 8)

    def write(self, address, value, at=None):
        return self.do('write', address, value, at)

    def dsp(self, address, value, at=None):
        return self.do('write_dsp', address, value, at)

    def read(self, address, wanted, at=None):
        self.wanted.append(wanted)
        return self.do('read', address, 0, at)

    def look(self, address, wanted=None, at=None):
        """Reads a register of the S-DSP; None leaves what is wanted to the rules."""
        self.wanted.append(wanted)
        return self.do('read_dsp', address, 0, at)

    def reached(self, address, least, wanted, at=None):
        """Whether a register of the S-DSP is at least so much."""
        self.wanted.append(wanted)
        return self.do('reached_dsp', address, least, at)

    def do(self, name, first, second, at):
        if at is not None:
            self.until(at, name)
        return self.command(name, first, second)

    # --- timers

    def behind_a_tick(self, timer):
        """Cycles are counted from a tick of a timer from here on, which goes on as it was before."""
        self.write(CONTROL, 0)
        self.write(TARGETS + timer, 1)
        self.write(CONTROL, 1 << timer)
        self.command('await_count', COUNTERS + timer)
        self.now = 9 if timer == 2 else 12

    def start(self, timer, target):
        """Starts it anew, in the middle between two ticks; the cycle. After n times its tick it has ticked n times."""
        self.behind_a_tick(timer)
        self.write(CONTROL, 0)
        self.write(TARGETS + timer, target)
        tick = TICK[timer]
        return self.write(CONTROL, 1 << timer, (self.now + 400) // tick * tick + tick // 2)

    # --- voices

    def key_on(self, voice, source=STILL, pitch=0x1000, gain=0x7F, adsr=(0, 0)):
        """Keys a voice on, and counts cycles from there."""
        for register, value in ((2, pitch & 0xFF), (3, pitch >> 8), (4, source), (5, adsr[0]), (6, adsr[1]), (7, gain)):
            self.dsp(16 * voice + register, value)
        self.dsp(KON, 1 << voice)
        self.now = rules.CYCLES['write_dsp'][1] - rules.CYCLES['write_dsp'][0]


def timer_tests():
    tests = []

    def test(name):
        tests.append(Test(name))
        return tests[-1]

    for timer, tick in enumerate(TICK):
        title, counter = 'timer %d, ' % timer, COUNTERS + timer
        for target, count in ((1, 21), (2, 21), (7, 19), (255, 1), (0, 1)):
            period = target or 256
            new = test(title + 'target %d: counts' % period)
            begin = new.start(timer, target)
            new.read(counter, count % 16, begin + tick * (count * period + period // 2))
            # a tick before it counts, and when it has counted
            for ticks, wanted in ((period - 1, 0), (period, 1)) if period > 100 else ():
                begin = new.start(timer, target)
                new.read(counter, wanted, begin + tick * ticks)
        new = test(title + 'its counter has 4 bits')
        for count in (15, 16, 17):
            begin = new.start(timer, 16)
            new.read(counter, count % 16, begin + tick * (16 * count + 8))
        new = test(title + 'a read clears its counter, and leaves the count towards the target')
        begin = new.start(timer, 64)
        new.read(counter, 3, begin + tick * (3 * 64 + 32))
        new.read(counter, 0)
        new.read(counter, 1, begin + tick * (4 * 64 + 16))
        new = test(title + 'stopped it keeps its counter, and counts no more')
        begin = new.start(timer, 16)
        new.write(CONTROL, 0, begin + tick * 56)
        new.read(counter, 3, begin + tick * 120)
        new.read(counter, 0)
        new = test(title + 'started anew it begins from nothing: its counter, and the count towards the target')
        begin = new.start(timer, 64)
        new.write(CONTROL, 0, begin + tick * (64 + 48))
        begin = new.write(CONTROL, 1 << timer, begin + tick * (64 + 90))
        new.read(counter, 0, begin + tick * 48)
        new.read(counter, 1, begin + tick * 80)
        new = test(title + 'control written again with its bit set changes nothing')
        begin = new.start(timer, 64)
        new.write(CONTROL, 1 << timer, begin + tick * (3 * 64 + 32))
        new.read(counter, 4, begin + tick * (4 * 64 + 16))
        for name, target, ticks in (('a target above its count: it counts there', 80, 80),
                                    ('a target below its count: it counts when it has wrapped at 256', 20, 276),
                                    ('a target that equals its count: it counts when it has wrapped at 256', 50, 306)):
            new = test(title + name)
            for behind in (-1, 0):
                begin = new.start(timer, 100)
                new.write(TARGETS + timer, target, begin + tick * 50)
                new.read(counter, behind + 1, begin + tick * (ticks + behind))
        new = test(title + 'stopped, the others go on')
        new.start(timer, 16)
        for other in range(3):
            new.write(TARGETS + other, 16)
        new.write(CONTROL, 0)
        new.behind_a_tick(timer)
        new.write(TARGETS + timer, 16)
        new.write(CONTROL, 0)
        begin = new.write(CONTROL, 7, 128 * 8 + 64)
        new.write(CONTROL, 7 & ~(1 << timer), begin + 128 * 44)
        counts = [44 // 16, 44 // 16, 8 * 44 // 16]
        more = [72 // 16, 72 // 16, 8 * 72 // 16]
        for other in range(3):
            new.read(COUNTERS + other, (counts if other == timer else more)[other] % 16, None if other else begin + 128 * 72)
    new = test('timers 0 and 1, one MOVW reads and clears both')
    new.behind_a_tick(0)
    new.write(TARGETS, 16)
    new.write(TARGETS + 1, 32)
    new.write(CONTROL, 0)
    begin = new.write(CONTROL, 3, 128 * 8 + 64)
    new.wanted += [7, 3, 0, 0]
    new.do('read_two', 0, 0, begin + 128 * 120)
    new.do('read_two', 0, 0, None)
    new.write(CONTROL, 0)
    return tests


def port_tests(*clears):
    """`clears` are the bytes of control that are written, one after another."""
    tests = []

    def read_all(test, wanted):
        for port in range(4):
            test.read(PORTS + port, wanted[port])

    tests.append(Test('ports, as the file gives them'))
    read_all(tests[-1], GIVEN_PORTS)
    tests.append(Test('ports, a write goes to the other side'))
    for port in range(4):
        tests[-1].write(PORTS + port, 0x11 * (port + 1))
    read_all(tests[-1], GIVEN_PORTS)
    tests.append(Test('ports, control without bits 4 and 5 leaves them'))
    tests[-1].write(CONTROL, 0x07)
    tests[-1].write(CONTROL, 0x00)
    read_all(tests[-1], GIVEN_PORTS)
    left = list(GIVEN_PORTS)
    for clear in clears:
        left = [0 if clear & (0x10, 0x10, 0x20, 0x20)[port] else byte for port, byte in enumerate(left)]
        tests.append(Test('ports, control %02x clears %s' % (clear, {0x10: '0 and 1', 0x20: '2 and 3', 0x30: 'all'}[clear])))
        tests[-1].write(CONTROL, clear)
        tests[-1].write(CONTROL, 0)
        read_all(tests[-1], left)
    return tests


def register_tests():
    """What else stands between F0 and FF."""
    memory = Test('memory at F8 and F9')
    for at, value in ((0xF8, 0x96), (0xF9, 0x69)):
        memory.write(at, value)
    for at, value in ((0xF8, 0x96), (0xF9, 0x69)):
        memory.read(at, value)
    written = Test('F0, F1 and the targets are read as 0')
    for at, value in ((CONTROL, 0x00), (0xFA, 0x21), (0xFB, 0x43), (0xFC, 0x65)):
        written.write(at, value)
    for at in (0xF0, CONTROL, 0xFA, 0xFB, 0xFC):
        written.read(at, 0)
    address = Test('F2 is read as it was written, bit 7 too')
    for value in (0x5D, 0xDD, 0x00):
        address.write(DSP_ADDRESS, value)
        address.read(DSP_ADDRESS, value)
    high = Test("the S-DSP's registers from 80 on are those from 00 on where they are read, and aren't written")
    high.dsp(0x10, 0x5A)
    high.look(0x10, 0x5A)
    high.look(0x90, 0x5A)
    high.dsp(0x90, 0xA5)
    high.look(0x10, 0x5A)
    high.dsp(0x10, 0x00)
    return [memory, written, address, high]


def end_tests():
    """ENDX, by voices whose wave ends 8 blocks after it begins, and then each 64 blocks. At a key on 12 samples are decoded ahead."""
    tests = []

    def test(name):
        tests.append(Test('ENDX, ' + name))
        tests[-1].dsp(ENDX, 0)
        return tests[-1]

    for pitch, name in ((0x1000, 'an end block sets it'), (0x2000, 'at twice the pitch in half the time'), (0x0800, 'at half the pitch in twice the time')):
        new = test(name)
        new.key_on(1, LATE_LOOP, pitch)
        end = 5 + 116 * 0x1000 // pitch
        new.look(ENDX, 0, SAMPLE * (end - 12))
        new.look(ENDX, 2, SAMPLE * (end + 12))
    new = test('a write clears it, whatever is written')
    new.key_on(1, LATE_LOOP)
    new.look(ENDX, 2, SAMPLE * 160)
    new.dsp(ENDX, 0xFF)
    new.look(ENDX, 0, SAMPLE * 180)
    new.look(ENDX, 0, SAMPLE * (5 + 116 + 1024 - 12))
    new.look(ENDX, 2, SAMPLE * (5 + 116 + 1024 + 12))
    new = test('key on clears the bit of its voice, and leaves the others')
    new.key_on(2, LATE_LOOP)
    new.key_on(1, LATE_LOOP)
    new.look(ENDX, 6, SAMPLE * 200)
    new.dsp(KON, 2)
    new.look(ENDX, 4, SAMPLE * 220)
    new.dsp(0x23, 0)                                    # voice 2 stands still from here on
    new = test('key off leaves it')
    new.key_on(1, LATE_LOOP)
    new.dsp(KOFF, 2, SAMPLE * 160)
    new.look(ENDX, 2, SAMPLE * 180)
    new.dsp(KOFF, 0)
    new = test('a voice that is silent comes to its end as any other: after a key off')
    new.key_on(1, LATE_LOOP, 0x0400)
    new.dsp(KOFF, 2, SAMPLE * 20)
    new.dsp(KOFF, 0, SAMPLE * 40)
    new.look(0x18, 0, SAMPLE * 350)
    new.look(ENDX, 0, SAMPLE * (5 + 4 * 116 - 12))
    new.look(ENDX, 2, SAMPLE * (5 + 4 * 116 + 12))
    new = test('a voice that is silent comes to its end as any other: in a block that ends without a loop')
    new.key_on(1, ONCE)
    new.look(ENDX, 0, SAMPLE * 100)
    new.look(ENDX, 2, SAMPLE * 140)
    return tests


def envelope_tests():
    tests = []

    def test(name):
        tests.append(Test(name))
        return tests[-1]

    for gain in (0x7F, 0x48, 0x01, 0x00):
        new = test('ENVX and OUTX, GAIN %02x sets the level' % gain)
        for source in (STILL, FLIPPED):
            new.key_on(1, source, gain=gain)
            new.look(0x18, gain, SAMPLE * 30)
            new.look(0x19)
    new = test('ENVX and OUTX, what is written there is soon gone')
    new.key_on(1)
    new.dsp(0x18, 0x11, SAMPLE * 30)
    new.dsp(0x19, 0x11)
    new.look(0x18, 0x7F, SAMPLE * 50)
    new.look(0x19, 0x37)
    new = test('ENVX, a key on while KOFF has the bit stays silent')
    new.dsp(KOFF, 2)
    new.key_on(1)
    new.look(0x18, 0, SAMPLE * 40)
    new.dsp(KOFF, 0)
    new = test('ENVX, a release falls by 8 a sample')
    new.key_on(1)
    begin = new.dsp(KOFF, 2, SAMPLE * 40)
    for level in (0x60, 0x20, 0x01):
        samples = (0x7F0 - 16 * level) // 8
        new.reached(0x18, level, 1, begin + SAMPLE * (samples - 10))
        new.reached(0x18, level, 0, begin + SAMPLE * (samples + 10))
    new.dsp(KOFF, 0)
    new = test('ENVX, a block that ends without a loop silences at once')
    new.key_on(1, ONCE)
    new.look(0x18, 0x7F, SAMPLE * 85)
    new.look(0x18, 0, SAMPLE * 140)
    new = test('ENVX, a soft reset silences at once')
    new.key_on(1)
    new.look(0x18, 0x7F, SAMPLE * 30)
    new.dsp(FLG, 0xE0)
    new.look(0x18, 0, SAMPLE * 60)
    new.dsp(FLG, 0x20)
    new.look(0x18, 0, SAMPLE * 90)
    new.dsp(KON, 1)                                     # the voice that plays, too
    new.until(SAMPLE * 120, 'read')
    new = test('ENVX, the fastest attack takes two samples')
    new.key_on(1, adsr=(0x8F, 0xE0))
    new.reached(0x18, 0x7F, 1, SAMPLE * 20)
    for attack in (14, 10):
        new = test('ENVX, attack %d rises at rate %d' % (attack, 2 * attack + 1))
        period = PERIODS[2 * attack + 1]
        for samples, wanted in ((31 * period - 7, 0), (32 * period + 17, 1)):
            new.key_on(1, adsr=(0x80 | attack, 0xE0))
            new.reached(0x18, 0x40, wanted, SAMPLE * samples)
    for sustain in range(8):
        new = test('ENVX, a decay ends at sustain level %d and stays there' % sustain)
        new.key_on(1, adsr=(0xFF, sustain << 5))
        new.look(0x18, None, SAMPLE * 1100)
    for rate in range(16, 32):
        new = test('ENVX, GAIN rises at rate %d' % rate)
        steps = 64 if rate > 24 else 16
        rise(new, 0xC0 + rate, steps * PERIODS[rate], steps)
    for rate in range(1, 16):
        new = test('ENVX, GAIN rises at rate %d' % rate)
        new.key_on(1, gain=0)
        new.until(SAMPLE * 20, 'write_dsp')
        new.dsp(0x17, 0xC0 + rate)
        new.command('await_change', 0x18)
        new.now = 3
        new.look(0x18, 2 * 4, SAMPLE * PERIODS[rate] * 7 // 2)
    for name, gain, before, steps in (('falls in line', 0x80, 0x7F, 8), ('falls in a curve', 0xA0, 0x7F, 20), ('rises bent', 0xE0, 0x58, 14)):
        new = test('ENVX, GAIN %s' % name)
        # voice 2 rises at the same rate, so a change of its ENVX shows when that rate comes
        new.key_on(1, gain=before)
        new.key_on(2, gain=0)
        new.dsp(0x27, 0xC0 + 15, SAMPLE * 30)
        new.command('await_change', 0x28)
        new.now = 3
        new.dsp(0x17, gain + 15)
        new.look(0x18, None, SAMPLE * PERIODS[15] * steps + SAMPLE * PERIODS[15] // 2)
    return tests


def rise(new, gain, samples, steps):
    """From level 0 so many steps of 20h last so many samples, or up to a period less."""
    level = 2 * steps if steps < 64 else 0x7F
    period = samples // steps
    for at, wanted in ((samples - period - 12, 0), (samples + 12, 1)):
        new.key_on(1, gain=0)
        begin = new.dsp(0x17, gain, SAMPLE * 30)
        new.reached(0x18, level, wanted, begin + SAMPLE * at)


FILES = {
    'timers': lambda: port_tests(0x30) + timer_tests(),
    'ports': lambda: port_tests(0x10, 0x20) + register_tests(),
    'voices': lambda: port_tests(0x20, 0x10) + end_tests() + envelope_tests(),
}


def expected(tests):
    """What each test reads, the same on all engines; and how many seconds it lasts at most."""
    found, longest = None, 0
    for engine in rules.ENGINES:
        machine = rules.Machine(engine)
        for test in tests:
            for command in (*test.commands, ('play', 0, 0)):
                machine.obey(*command)
        for test, one, other in zip(tests, machine.tests_read, found or machine.tests_read):
            known = [byte if byte is not None else read for byte, read in zip(test.wanted, one, strict=True)]
            assert one == other == known, (test.name, vars(engine), one, other, test.wanted)
        found, longest = machine.tests_read, max(longest, machine.clock)
    return found, longest // (32000 * SAMPLE) + 1


def spc_file(driver, tests):
    head, memory, registers = bytearray(0x100), bytearray(0x10000), bytearray(128)
    head[:35] = b'SNES-SPC700 Sound File Data v0.30\x1a\x1a'
    head[0x23:0x25] = b'\x1b\x1e'                       # no tags; minor version 30
    head[0x25:0x2c] = struct.pack('<HBBBBB', DRIVER, 0, 0, 0, 0, 0xCF)
    memory[2:4] = struct.pack('<H', SCRIPT)
    memory[PORTS:PORTS + 4] = bytes(GIVEN_PORTS)
    for source, entry in rules.ENTRIES.items():
        memory[DIRECTORY + 4 * source:DIRECTORY + 4 * source + 4] = struct.pack('<HH', *entry)
    for block, header in rules.HEADERS.items():
        memory[block:block + 9] = bytes([header] + 8 * [0x99 if block == rules.ENTRIES[FLIPPED][0] else 0x77])
    memory[DRIVER:DRIVER + len(driver)] = driver
    script = [command for test in tests for command in (*test.commands, ('play', 0, 0))] + [('end', 0, 0)]
    code = bytes(byte for name, first, second in script for byte in (2 * rules.COMMANDS.index(name), first, second))
    assert DRIVER + len(driver) <= SCRIPT and SCRIPT + len(code) <= rules.LONG
    memory[SCRIPT:SCRIPT + len(code)] = code
    for register, value in {0x07: 0x7F, 0x0C: 0x7F, 0x1C: 0x7F, 0x5D: DIRECTORY >> 8, FLG: 0x20}.items():
        registers[register] = value
    return bytes(head + memory + registers + bytes(64) + memory[0xFFC0:])


def make(program, name, path):
    """Writes a file, and returns what is expected of it. The program only assembles the driver."""
    tests = FILES[name]()
    values, seconds = expected(tests)
    with tempfile.TemporaryDirectory() as folder:
        code = os.path.join(folder, 'code')
        subprocess.run([program, 'asm', os.path.join(runs.EXAMPLES, 'registers.asm'), '%04x' % DRIVER, code], check=True, stdout=subprocess.DEVNULL)
        runs.write(path, spc_file(runs.read(code), tests))
    return {'seconds': seconds, 'names': [test.name for test in tests], 'expected': values}
