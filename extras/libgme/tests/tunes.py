"""Files that the tests play: small tunes of other formats, and the example with other tags."""
import gzip
import struct

# Where an SPC file has its tags, by the text of the file format.
HAS_TAGS, SONG, GAME, DUMPER, COMMENT, DATE, SECONDS, FADE, AUTHOR, EXTENDED = 0x23, 0x2E, 0x4E, 0x6E, 0x7E, 0x9E, 0xA9, 0xAC, 0xB0, 0x10200


def nsf():
    """A tune for the Nintendo NES: a pulse whose pitch changes with each picture."""
    start = bytes.fromhex('a90f8d1540a9bf8d0040a9088d0140a9fe8d0240a9088d034060')
    play = bytes.fromhex('e610a5108d024060')
    head = b'NESM\x1a' + struct.pack('<BBBHHH', 1, 1, 1, 0x8000, 0x8000, 0x8020)
    head += b'Pulse'.ljust(32, b'\0') + b'Nobody'.ljust(32, b'\0') + b'2026'.ljust(32, b'\0')
    return head + struct.pack('<H8xHBB4x', 16666, 20000, 0, 0) + start.ljust(32, b'\0') + play


def vgm():
    """A tune for the Sega Master System: a tone of its PSG that steps up."""
    data, samples = bytes.fromhex('509f50bf50df50ff5090'), 0
    for step in range(200):
        pitch = 400 - step
        data += bytes([0x50, 0x80 | pitch & 15, 0x50, pitch >> 4, 0x61]) + struct.pack('<H', 735)
        samples += 735
    data += b'\x66'
    head = b'Vgm ' + struct.pack('<IIIIIIII', 0x40 + len(data) - 4, 0x101, 3579545, 0, 0, samples, 0, 0)
    return head.ljust(0x40, b'\0') + data


def gbs():
    """A tune for the Game Boy: a single tone."""
    start = bytes.fromhex('3e80e0263effe0243effe0253ef3e0123e87e014c9')
    head = b'GBS\x01' + struct.pack('<BBHHHHBB', 1, 1, 0x400, 0x400, 0x420, 0xFFFE, 0, 0)
    return (head + b'Tone'.ljust(32, b'\0') + b'Nobody'.ljust(32, b'\0') + b'2026'.ljust(32, b'\0')).ljust(0x70, b'\0') + start.ljust(32, b'\0') + b'\xc9'


def other_formats():
    """Files by name."""
    return {'pulse.nsf': nsf(), 'tone.gbs': gbs(), 'step.vgm': vgm(), 'step.vgz': gzip.compress(vgm(), mtime=0)}


class Head:
    """An SPC file whose tags are changed."""

    def __init__(self, tune):
        self.data = bytearray(tune[:EXTENDED])
        self.data[HAS_TAGS] = 26
        self.put(SONG, 32, b'A song').put(GAME, 32, b'A game').put(DUMPER, 16, b'A dumper').put(COMMENT, 32, b'A comment').put(DATE, 0xD1 - DATE, b'')

    def put(self, place, size, text):
        self.data[place:place + size] = text.ljust(size, b'\0')[:size]
        return self

    def text(self, seconds, fade, author):
        return self.put(SECONDS, 3, seconds).put(FADE, 5, fade).put(AUTHOR + 1, 32, author)

    def binary(self, seconds, fade, author):
        return self.put(SECONDS, 3, struct.pack('<I', seconds)[:3]).put(FADE, 4, struct.pack('<I', fade)).put(AUTHOR, 32, author)

    def extended(self, *tags):
        """With extended tags, each its kind and a text or a number."""
        chunks = b''
        for kind, value in tags:
            if isinstance(value, int):
                chunks += struct.pack('<BBH', kind, 0, value)
            else:
                chunks += struct.pack('<BBH', kind, 1, len(value)) + value + bytes(-len(value) % 4)
        self.data += b'xid6' + struct.pack('<I', len(chunks)) + chunks
        return self


NO_TIME = (-1, 180000)


def texts(author='', song='A song', game='A game', publisher='', comment='A comment', dumper='A dumper'):
    return [text.encode() for text in ('Super Nintendo', game, song, author, publisher, comment, dumper)]


def tagged(tune):
    """Of each file what it shows, its bytes, the texts that are expected, the length by the tags and that which is played, in milliseconds."""
    untagged = Head(tune).text(b'050', b'10000', b'Anna')
    untagged.data[HAS_TAGS] = 27
    long_texts = [(1, b'A longer song'), (2, b'A longer game'), (3, b'Berta'), (4, b'Carl'), (7, b'Hello'), (0x13, b'Some House'), (0x14, 1995)]
    extended = Head(tune).text(b'50', b'5000', b'Anna').extended(*long_texts)
    overlong = Head(tune).text(b'50', b'', b'Anna')
    overlong.data += b'xid6' + struct.pack('<IBBH', 400, 1, 1, 300) + b'too short'
    unpadded = Head(tune).text(b'50', b'', b'Anna')
    unpadded.data += b'xid6' + struct.pack('<I', 15) + struct.pack('<BBH', 1, 1, 3) + b'One' + struct.pack('<BBH', 3, 1, 4) + b'Dora'
    return [
        ('text form', Head(tune).text(b'050', b'10000', b'Anna'), texts('Anna'), (60000, 60000)),
        ('text form, an author that begins with a digit', Head(tune).text(b'50 ', b'', b'2 Annas'), texts('2 Annas'), (50000, 50000)),
        ('binary form', Head(tune).binary(300, 10000, b'Anna'), texts('Anna'), (310000, 310000)),
        ('binary form, whose seconds look like a digit', Head(tune).binary(50, 0, b'Anna'), texts('Anna'), (50000, 50000)),
        ('binary form, no time', Head(tune).binary(0, 10000, b'Anna'), texts('Anna'), NO_TIME),
        ('no time', Head(tune).text(b'', b'', b'Anna'), texts('Anna'), NO_TIME),
        ('no tags, whatever their places hold', untagged, texts('Anna'), NO_TIME),
        ('question marks', Head(tune).text(b'1', b'0', b'<?>'), texts(''), (1000, 1000)),
        ('extended tags', extended, texts('Berta', 'A longer song', 'A longer game', '1995 Some House', 'Hello', 'Carl'), (55000, 55000)),
        ('an extended tag longer than the file', overlong, texts('Anna'), (50000, 50000)),
        ('extended tags without filling', unpadded, texts('Dora', 'One'), (50000, 50000)),
    ]
