"""SPC files that make one instruction after another and play what each left; examples/processor.asm is their driver.

The tables beside the driver are drawn so that a test reads and writes what is filled anew before it, and comes back.
What is to be heard is read off the trace of the program's own render, which is proved to be that of the definitions.
"""
import os
import random
import struct
import subprocess
import tempfile

import runs

DRIVER, POINTERS, DATA, STACKS, TESTS, PADS, VECTORS = 0x0400, 0x0900, 0x0A00, 0x0B00, 0x0C00, 0xFF00, 0xFFC0
PAD_COUNT = 32                  # of six bytes each, from PADS on; the pads 1 and 2 are before and after the instruction
WORDS = ('A', 'X', 'Y', 'PSW', 'SP', 'pad', 'sum', 'sum of sums')
EDGES = (0x00, 0x01, 0x0F, 0x10, 0x7F, 0x80, 0x81, 0x99, 0x9A, 0xFE, 0xFF)
STACK_POINTERS = (0xFB, 0xFC, 0xFD, 0xFE, 0xFF, 0x00, 0x01, 0x02, 0x03, 0x04)
HALTS = (0xEF, 0xFF)            # SLEEP and STOP don't come back
GROUPS = ((0x00, 0x3F), (0x40, 0x7F), (0x80, 0xBF), (0xC0, 0xFF))
MARK = 9                        # pairs of volumes in a mark

# How each opcode finds its operands: a row for each 32 opcodes, and in it a letter for each.
#   . none   i #i   d d   D d+X   E d+Y   a !a   A !a+X   B !a+Y   x (X)   y (X),(Y)   p [d+X]   q [d]+Y   I d,#i   w d,d   m m.b
#   r branch   s d,r   S d+X,r   j jump or call   J [!a+X]   u PCALL   t RET   T RETI   P MOV SP,X
FORMS = (
    '..dsdaxpiwmda.a.r.dsDABqIydD..aJ'
    '..dsdaxpiwmda.srr.dsDABqIydD..dj'
    '..dsdaxpiwmda.aur.dsDABqIydD..aj'
    '..dsdaxpiwmda.str.dsDABqIydD..dT'
    '..dsdaxpiwmdai.Ir.dsDABqIydD....'
    '..dsdaxpiwmdai.xr.dsDABqIydD.P.x'
    '..dsdaxpiamdai..r.dsDABqdEdD..S.'
    '..dsdaxpiamda...r.dsDABqdEwD..r.')


def signed(byte):
    return byte - 256 if byte > 127 else byte


def low_high(number):
    return number & 0xFF, number >> 8 & 0xFF


class Tables:
    """What the tests of a file share: data, stacks, pointers and pads."""

    def __init__(self, driver, picked):
        self.instruction, self.before, self.behind, self.save = struct.unpack('<4H', driver[-8:])
        self.pads = [PADS + 6 * number for number in range(PAD_COUNT)]
        self.data = [picked.choice((picked.choice(EDGES), picked.randrange(256))) for _ in range(256)]
        # The last quarter has pointers, one for each direct page by turns: the low bytes of two, and their high bytes.
        for at in range(192, 256, 4):
            for page in (0, 1):
                near = picked.randrange(2)
                self.data[at + page] = 0x40 + picked.randrange(32) if near else picked.randrange(0x40)
                self.data[at + 2 + page] = picked.randrange(2)
        self.stacks = [picked.randrange(256) for _ in range(256)]
        for at in range(0, 256, 8):
            self.stacks[at + 1], self.stacks[at + 2] = low_high(picked.choice(self.pads))
        self.pointers = [byte for _ in range(128) for byte in low_high(picked.choice(self.pads))]

    def put(self, memory):
        memory[DATA:DATA + 256] = bytes(self.data)
        memory[STACKS:STACKS + 256] = bytes(self.stacks)
        memory[POINTERS:POINTERS + 256] = bytes(self.pointers)
        for number, pad in enumerate(self.pads):        # MOV $0C,#number and JMP !save
            memory[pad:pad + 6] = bytes([0x8F, number + 3, 0x0C, 0x5F, *low_high(self.save)])
        for number in range(16):
            memory[VECTORS + 2 * number:VECTORS + 2 * number + 2] = bytes(low_high(self.pads[2 * number]))


class Test:
    """The ten bytes of a test, whose operands lie where it may read and write."""

    def __init__(self, opcode, tables, picked):
        self.tables, self.picked = tables, picked
        self.a, self.x, self.y = self.byte(), self.byte(), self.byte()
        self.psw, self.sp = picked.randrange(256), picked.choice(STACK_POINTERS)
        self.data, self.stack = picked.randrange(256), picked.randrange(256)
        self.operand = [0, 0]
        self.draw(FORMS[opcode])
        self.bytes = bytes([self.a, self.x, self.y, self.psw, self.sp, opcode, *self.operand, self.data, self.stack])

    def byte(self):
        return self.picked.choice((self.picked.choice(EDGES), self.picked.randrange(256)))

    def near(self):
        """A byte of the data in the direct page, which isn't its last."""
        return 0x40 + self.picked.randrange(31)

    def far(self):
        """The address of a byte of the data."""
        return self.near() + 0x100 * self.picked.randrange(2)

    def branch(self, length):
        """The distance to the pad before or after the instruction."""
        return self.picked.choice((self.tables.before, self.tables.behind)) - (self.tables.instruction + length) & 0xFF

    def pointer(self):
        """Where in the direct page a pointer of the data stands, and to where it points; `data` is set for it."""
        page = self.psw >> 5 & 1
        at, place = 192 + 4 * self.picked.randrange(15), self.picked.randrange(31)
        self.data = at - 2 * place & 0xFF
        return 0x40 + place, self.tables.data[at + page] + 0x100 * self.tables.data[at + 2 + page]

    def draw(self, form):
        """Sets the operands, and the registers and tables that lead to them."""
        pick = self.picked.choice
        if form == 'i':
            self.operand[0] = self.byte()
        elif form == 'd':
            self.operand[0] = self.near()
        elif form in 'DE':
            self.operand[0] = self.near() - (self.x if form == 'D' else self.y) & 0xFF
        elif form in 'aAB':
            self.indexed({'a': 0, 'A': self.x, 'B': self.y}[form])
        elif form in 'xy':
            self.x, self.y = self.near(), self.near() if form == 'y' else self.y
        elif form in 'pq':
            self.through_pointer(form)
        elif form == 'I':
            self.operand = [self.byte(), self.near()]
        elif form == 'w':
            self.operand = [self.near(), self.near()]
        elif form == 'm':
            self.operand = list(low_high(self.far() | self.picked.randrange(8) << 13))
        elif form == 'r':
            self.operand[0] = self.branch(2)
        elif form in 'sS':
            self.operand = [self.near() - (self.x if form == 'S' else 0) & 0xFF, self.branch(3)]
        elif form == 'j':
            self.operand = list(low_high(pick(self.tables.pads)))
        elif form == 'J':
            self.operand = list(low_high(POINTERS + 2 * self.picked.randrange(128) - self.x))
        elif form == 'u':
            self.operand[0] = pick(self.tables.pads) & 0xFF
        elif form in 'tT':      # the stack's copy begins at 01F8: the byte after SP is the one before a pad, or its first
            self.stack = 8 * self.picked.randrange(32) + (form == 't') - (self.sp + 1 - 0xF8 & 0xFF) & 0xFF
        elif form == 'P':
            self.x = pick(STACK_POINTERS)

    def indexed(self, index):
        """An address that is one of the data's with the index, and doesn't wrap at the end of the memory."""
        target = self.far()
        if target < index:
            target += 0x100 if target < 0x100 else 0
        self.operand = list(low_high(target - index))

    def through_pointer(self, form):
        if form == 'p':
            while True:
                place, target = self.pointer()
                if target & 0xFF in range(0x40, 0x60):
                    break
            self.operand[0] = place - self.x & 0xFF
            return
        while True:
            place, target = self.pointer()
            index = self.far() - target
            if 0 <= index < 256:
                break
        self.operand[0], self.y = place, index


def spc_file(driver, tables, tests):
    head, memory, registers = bytearray(0x100), bytearray(0x10000), bytearray(128)
    head[:35] = b'SNES-SPC700 Sound File Data v0.30\x1a\x1a'
    head[0x23:0x25] = b'\x1b\x1e'                       # no tags; minor version 30
    head[0x25:0x2c] = struct.pack('<HBBBBB', DRIVER, 0, 0, 0, 0, 0xCF)
    memory[2:6] = struct.pack('<HH', TESTS, TESTS + 10 * len(tests))
    memory[0x200:0x204] = struct.pack('<HH', 0x210, 0x210)
    memory[0x210:0x219] = b'\xb3' + 8 * b'\x77'         # sixteen samples alike, again and again
    memory[DRIVER:DRIVER + len(driver)] = driver
    tables.put(memory)
    for number, test in enumerate(tests):
        memory[TESTS + 10 * number:TESTS + 10 * number + 10] = test.bytes
    assert DRIVER + len(driver) <= POINTERS and TESTS + 10 * len(tests) <= PADS
    for register, value in {0x03: 0x10, 0x07: 0x7F, 0x0C: 0x7F, 0x1C: 0x7F, 0x5D: 0x02, 0x6C: 0x20}.items():
        registers[register] = value
    return bytes(head + memory + registers + bytes(64) + memory[0xFFC0:])


def slots_of(trace):
    """Of each pair of volumes the sample at which it is whole, and both."""
    slots, left = [], 0
    for line in trace.splitlines():
        kind, sample, register, value = line.split()[:4]
        if kind == 'R' and register == '00':
            left = int(value, 16)
        elif kind == 'R' and register == '01':
            slots.append((int(sample), left, int(value, 16)))
    return slots


def make(program, first, last, each, seed, path):
    """Writes the file of some opcodes, and returns what is expected of it."""
    picked = random.Random('%d %d' % (seed, first))
    with tempfile.TemporaryDirectory() as folder:
        code, trace = os.path.join(folder, 'code'), os.path.join(folder, 'trace')

        def ask(*words):
            subprocess.run([program, *words], check=True, stdout=subprocess.DEVNULL)

        ask('asm', os.path.join(runs.EXAMPLES, 'processor.asm'), '%04x' % DRIVER, code)
        driver = runs.read(code)
        tables = Tables(driver, picked)
        tests = [Test(opcode, tables, picked) for opcode in range(first, last + 1) if opcode not in HALTS for _ in range(each)]
        runs.write(path, spc_file(driver, tables, tests))
        table, wave = os.path.join(runs.EXAMPLES, 'gauss.table'), os.path.join(folder, 'wave')
        ask('render', path, table, wave, '--trace', trace, '--samples', str(6000 + 300 * len(tests)))
        slots = slots_of(runs.read(trace).decode())
    if len(slots) != 2 * MARK + 4 * len(tests):
        raise SystemExit('%s: %d pairs were played, and not %d' % (path, len(slots), 2 * MARK + 4 * len(tests)))
    return {'tests': [test.bytes.hex() for test in tests], 'slots': slots}
