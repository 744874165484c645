#!/usr/bin/env python3
"""Plays an SPC file by libspcwave: player.py LIBRARY TUNE.spc TABLE OUT.wav [FROM_SECOND [SECONDS]]. Standard library alone.

It prints the tags, and for each second the level of each voice's envelope as a digit, 0 to 9."""
import ctypes
import sys
import wave


class Options(ctypes.Structure):
    _fields_ = [('size', ctypes.c_uint32), ('pages', ctypes.c_uint32), ('mark_seconds', ctypes.c_uint32), ('muted', ctypes.c_uint8)]


class Text(ctypes.Structure):
    _fields_ = [('offset', ctypes.c_uint32), ('length', ctypes.c_uint32)]


class Info(ctypes.Structure):
    _fields_ = [('size', ctypes.c_uint32), ('frames', ctypes.c_uint32), ('fade', ctypes.c_uint32), ('tagged', ctypes.c_bool), ('timed', ctypes.c_bool),
                ('tags', Text * 8)]


class Voice(ctypes.Structure):
    _fields_ = [('level', ctypes.c_uint16), ('pitch', ctypes.c_uint16), ('output', ctypes.c_int16), ('source', ctypes.c_uint16)]


class Player:
    """A player of the tune of some bytes; `play` gives frames of 4 bytes, as they stand in a WAV file."""

    NOT_YET = 18
    NAMES = {4: 'no SPC length', 5: 'no SPC signature', 6: 'no table', 7: 'out of memory', 17: 'out of range'}

    def __init__(self, library, spc, table, pages=4096, mark_seconds=0, muted=0):
        self.lib, self.handle = ctypes.CDLL(library), ctypes.c_void_p()
        handle, number, size = ctypes.c_void_p, ctypes.c_uint32, ctypes.c_size_t
        self.lib.spcwave_close.argtypes = [ctypes.POINTER(handle)]
        self.lib.spcwave_open.argtypes = [ctypes.POINTER(handle), ctypes.c_char_p, size, ctypes.c_char_p, size, ctypes.POINTER(Options)]
        for play in self.lib.spcwave_play, self.lib.spcwave_play_faded:
            play.argtypes, play.restype = [handle, ctypes.c_void_p, size], size
        self.lib.spcwave_inspect.argtypes = [ctypes.c_char_p, size, ctypes.POINTER(Info)]
        self.lib.spcwave_seek.argtypes = [handle, number]
        self.lib.spcwave_seek_some.argtypes = self.lib.spcwave_set_end.argtypes = [handle, number, number]
        self.lib.spcwave_mute.argtypes, self.lib.spcwave_mute.restype = [handle, ctypes.c_uint8], None
        self.lib.spcwave_mark.argtypes, self.lib.spcwave_mark.restype = [handle], None
        for call in self.lib.spcwave_position, self.lib.spcwave_free_pages:
            call.argtypes = [handle]
        self.lib.spcwave_length.argtypes, self.lib.spcwave_length.restype = [handle, ctypes.POINTER(number), ctypes.POINTER(number)], None
        self.lib.spcwave_tag.argtypes, self.lib.spcwave_tag.restype = [handle, number, ctypes.c_char_p, size], size
        self.lib.spcwave_tagged.argtypes, self.lib.spcwave_tagged.restype = [handle], ctypes.c_bool
        self.lib.spcwave_registers.argtypes, self.lib.spcwave_registers.restype = [handle, ctypes.c_char_p], None
        self.lib.spcwave_voice.argtypes = [handle, number, ctypes.POINTER(Voice)]
        self.check(self.lib.spcwave_open(self.handle, spc, len(spc), table, len(table), Options(ctypes.sizeof(Options), pages, mark_seconds, muted)))

    def check(self, status):
        if status:
            raise ValueError(self.NAMES.get(status, status))

    def inspect(self, spc):
        """What the bytes of any SPC file say: `frames`, `fade`, `tagged`, `timed`, and in `tags` where the texts of the tags are."""
        info = Info(ctypes.sizeof(Info))
        self.check(self.lib.spcwave_inspect(spc, len(spc), info))
        return info

    def length(self):
        frames, fade = ctypes.c_uint32(), ctypes.c_uint32()
        self.lib.spcwave_length(self.handle, frames, fade)
        return frames.value, fade.value

    def is_tagged(self):
        """Whether the file says that it has tags."""
        return self.lib.spcwave_tagged(self.handle)

    def tag(self, number):
        """The text of a tag: 0 is the title, 1 the game, 2 the artist; spcwave.h has the others."""
        text = ctypes.create_string_buffer(33)
        self.lib.spcwave_tag(self.handle, number, text, len(text))
        return text.value.decode('latin-1')

    def position(self):
        return self.lib.spcwave_position(self.handle)

    def free_pages(self):
        return self.lib.spcwave_free_pages(self.handle)

    def seek(self, frame):
        self.check(self.lib.spcwave_seek(self.handle, frame))

    def seek_some(self, frame, count):
        """Goes towards a frame by running at most `count` frames; returns whether it is there."""
        status = self.lib.spcwave_seek_some(self.handle, frame, count)
        if status != self.NOT_YET:
            self.check(status)
        return status != self.NOT_YET

    def mark(self):
        self.lib.spcwave_mark(self.handle)

    def mute(self, voices):
        """Mutes these voices from now on and no others, bit v is voice v."""
        self.lib.spcwave_mute(self.handle, voices)

    def set_end(self, frames, fade):
        """The length to which `play` plays with the fade, and its last frames that fade out."""
        self.check(self.lib.spcwave_set_end(self.handle, frames, fade))

    def play(self, count, faded=False):
        room = ctypes.create_string_buffer(4 * count)
        given = (self.lib.spcwave_play_faded if faded else self.lib.spcwave_play)(self.handle, room, count)
        return room.raw[:4 * given]

    def registers(self):
        """The 128 registers of the S-DSP at the position."""
        room = ctypes.create_string_buffer(128)
        self.lib.spcwave_registers(self.handle, room)
        return room.raw

    def voice(self, number):
        """The level, pitch, output and source of a voice at the position."""
        voice = Voice()
        self.check(self.lib.spcwave_voice(self.handle, number, voice))
        return voice

    def close(self):
        self.lib.spcwave_close(self.handle)


def main():
    if sys.argv[1:] in (['-h'], ['--help']):
        print(__doc__)
        return
    if not 5 <= len(sys.argv) <= 7:
        sys.exit('usage: player.py LIBRARY TUNE.spc TABLE OUT.wav [FROM_SECOND [SECONDS]]')
    library, tune, table, out = sys.argv[1:5]
    begin, seconds = (float(it) for it in (sys.argv[5:] + ['0', '-1'][len(sys.argv) - 5:])[:2])
    player = Player(library, open(tune, 'rb').read(), open(table, 'rb').read())
    print(' / '.join(player.tag(number) for number in range(3)) if player.is_tagged() else 'no tags')
    player.seek(int(begin * 32000))
    count = int(seconds * 32000) if seconds >= 0 else player.length()[0]
    with wave.open(out, 'wb') as sound:
        sound.setparams((2, 2, 32000, 0, 'NONE', 'not compressed'))
        while count > 0 and (piece := player.play(min(count, 32000), faded=True)):
            sound.writeframes(piece)
            count -= len(piece) // 4
            levels = (player.voice(number).level * 9 // 2047 for number in range(8))
            print(player.position() // 32000, ' '.join(map(str, levels)))
    player.close()


if __name__ == '__main__':
    main()
