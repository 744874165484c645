"""Prints what a libgme answers without playing, a row a question: answers.py LIBRARY TUNE"""
import ctypes
import gzip
import json
import os
import sys
import tempfile

TEXTS = ['gme_type_system', 'gme_type_extension', 'gme_voice_name', 'gme_identify_header', 'gme_warning', 'gme_open_data', 'gme_open_file',
         'gme_start_track', 'gme_seek', 'gme_seek_samples', 'gme_track_info', 'gme_identify_file', 'gme_play', 'gme_load_data']
POINTERS = ['gme_type', 'gme_identify_extension', 'gme_type_list', 'gme_new_emu', 'gme_user_data']


class Info(ctypes.Structure):
    _fields_ = [('numbers', ctypes.c_int * 16), ('texts', ctypes.c_char_p * 16)]


def load(path):
    library = ctypes.CDLL(path)
    for name in TEXTS:
        getattr(library, name).restype = ctypes.c_char_p
    for name in POINTERS:
        getattr(library, name).restype = ctypes.c_void_p
    library.gme_open_data.argtypes = [ctypes.c_char_p, ctypes.c_long, ctypes.c_void_p, ctypes.c_int]
    return library


class Answers:
    """Asks a library, and keeps what it answers."""

    def __init__(self, library, tune):
        self.library, self.tune, self.rows = library, tune, {}

    def row(self, question, answer):
        self.rows[question] = repr(answer)

    def opened(self, data, rate=32000):
        emu = ctypes.c_void_p()
        return self.library.gme_open_data(data, len(data), ctypes.byref(emu), rate), emu

    def ask_types(self):
        listed = ctypes.cast(self.library.gme_type_list(), ctypes.POINTER(ctypes.c_void_p))
        count = 0
        while listed[count]:
            kind = ctypes.c_void_p(listed[count])
            name = self.library.gme_type_extension(kind).decode()
            same = ctypes.c_void_p.in_dll(self.library, f'gme_{name.lower()}_type').value == listed[count]
            self.row(f'type {count}', (self.library.gme_type_system(kind), name, bool(self.library.gme_type_multitrack(kind)), same))
            count += 1
        for path in [b'spc', b'a.SPC', b'/a.b/c.nsf', b'rsn', b'spcx', b'', b'vgz']:
            kind = self.library.gme_identify_extension(path)
            self.row(f'extension {path}', self.library.gme_type_extension(ctypes.c_void_p(kind)) if kind else None)
        for head in [b'SNES', b'NESM', b'NSFE', b'GBS\x01', b'GYMX', b'HESM', b'KSCC', b'KSSX', b'SAP\r', b'Vgm ', b'ZXAY', b'Rar!', b'\x1f\x8b\x08\0']:
            self.row(f'head {head}', self.library.gme_identify_header(head + bytes(20)))

    def ask_lengths(self):
        for length in (3, 100, 65919, 65920, 65984, 66047, 66048, 70000, 1048576, 1048577):
            error, emu = self.opened((self.tune + bytes(2000000))[:length])
            self.row(f'length {length}', error)
            self.library.gme_delete(emu)
        self.row('other signature', self.opened(b'SNES-SPC700 Sound File DatX' + self.tune[27:])[0])
        self.row('no format', self.opened(b'XXXXYYYYZZZZ' * 9)[0])

    def ask_files(self):
        files = {'a.spc': self.tune, 'b.bin': self.tune, 'c.spc.gz': gzip.compress(self.tune), 'd.spc': gzip.compress(self.tune), 'e.spc': b'no',
                 'f.txt': b'no SPC file'}
        with tempfile.TemporaryDirectory() as folder:
            for name, data in files.items():
                path = os.path.join(folder, name).encode()
                with open(path, 'wb') as file:
                    file.write(data)
                emu, kind = ctypes.c_void_p(), ctypes.c_void_p()
                error = self.library.gme_identify_file(path, ctypes.byref(kind))
                self.row(f'file {name}', (error, self.library.gme_type_extension(kind) if kind else None,
                                          self.library.gme_open_file(path, ctypes.byref(emu), 32000)))
                self.library.gme_delete(emu)
        emu = ctypes.c_void_p()
        self.row('no file', self.library.gme_open_file(b'/none/x.spc', ctypes.byref(emu), 32000))

    def ask_info(self):
        emu, info = self.opened(self.tune, -1)[1], ctypes.POINTER(Info)()
        self.row('info', self.library.gme_track_info(emu, ctypes.byref(info), 0))
        self.row('info texts', [info.contents.texts[i] for i in range(16)])
        self.row('info intro and loop', list(info.contents.numbers)[1:3])
        self.row('info length', [info.contents.numbers[i] for i in (0, 3)])
        self.library.gme_free_info(info)
        self.row('info of track 1', self.library.gme_track_info(emu, ctypes.byref(info), 1))
        self.library.gme_delete(emu)

    def ask_playing(self):
        emu, samples = self.opened(self.tune)[1], (ctypes.c_short * 6400)()
        self.row('voices', (self.library.gme_voice_count(emu), [self.library.gme_voice_name(emu, i) for i in range(8)], self.library.gme_multi_channel(emu)))
        self.row('tracks', (self.library.gme_track_count(emu), self.library.gme_warning(emu)))
        self.row('track 1', self.library.gme_start_track(emu, 1))
        self.row('started', (self.library.gme_start_track(emu, 0), self.library.gme_tell(emu), self.library.gme_track_ended(emu)))
        self.row('played', (self.library.gme_play(emu, 6400, samples), self.library.gme_tell(emu), self.library.gme_tell_samples(emu)))
        self.row('sought', (self.library.gme_seek(emu, 5000), self.library.gme_tell(emu), self.library.gme_tell_samples(emu)))
        self.row('sought by samples', (self.library.gme_seek_samples(emu, 2000), self.library.gme_tell(emu), self.library.gme_tell_samples(emu)))
        self.library.gme_set_user_data(emu, ctypes.c_void_p(77))
        self.row('user data', self.library.gme_user_data(emu))
        called = []
        cleanup = ctypes.CFUNCTYPE(None, ctypes.c_void_p)(called.append)
        self.library.gme_set_user_cleanup(emu, cleanup)
        self.library.gme_delete(emu)
        self.row('cleanup', called)
        self.library.gme_delete(None)

    def ask_loading(self):
        reader, place = ctypes.CFUNCTYPE(ctypes.c_void_p, ctypes.c_void_p, ctypes.c_void_p, ctypes.c_int), [0]

        @reader
        def read(_, out, count):
            ctypes.memmove(out, self.tune[place[0]:place[0] + count], count)
            place[0] += count

        spc = ctypes.c_void_p.in_dll(self.library, 'gme_spc_type')
        emu = ctypes.c_void_p(self.library.gme_new_emu(spc, 44100))
        self.library.gme_load_custom.restype = ctypes.c_char_p
        self.row('loaded by a reader', (self.library.gme_load_custom(emu, read, ctypes.c_long(len(self.tune)), None),
                                        self.library.gme_type(emu) == spc.value, self.library.gme_start_track(emu, 0)))
        self.row('loaded again', (self.library.gme_load_data(emu, self.tune, ctypes.c_long(len(self.tune))), self.library.gme_start_track(emu, 0)))
        self.library.gme_delete(emu)


def main():
    with open(sys.argv[2], 'rb') as file:
        answers = Answers(load(sys.argv[1]), file.read())
    for ask in (answers.ask_types, answers.ask_lengths, answers.ask_files, answers.ask_info, answers.ask_playing, answers.ask_loading):
        ask()
    json.dump(answers.rows, sys.stdout)


main()
