"""Unchanged players of Debian 12, each writing what it plays to a file: of 16-bit frames, left first."""
import os
import pathlib
import shutil
import subprocess
import tempfile
import time

# A default device of ALSA that writes what it is given to a file.
ALSA = 'pcm.!default {{ type file; slave.pcm "null"; file "{}"; format raw }}\nctl.!default {{ type hw; card 0 }}\n'


class Room:
    """A home of its own for a player, with the libgme that it is to find."""

    def __init__(self, library):
        self.path = tempfile.mkdtemp(prefix='spcwave-player-')
        home = {'HOME': '', 'XDG_CONFIG_HOME': 'config', 'XDG_RUNTIME_DIR': '', 'XDG_CACHE_HOME': 'cache', 'XDG_DATA_HOME': 'data'}
        self.environment = {**os.environ, **{name: os.path.join(self.path, folder) for name, folder in home.items()}, 'QT_QPA_PLATFORM': 'offscreen'}
        if library:
            self.environment['LD_LIBRARY_PATH'] = library

    def __enter__(self):
        return self

    def __exit__(self, *_):
        shutil.rmtree(self.path)

    def run(self, *words, **more):
        return subprocess.run(words, env=self.environment, cwd=self.path, stdin=subprocess.DEVNULL, stdout=subprocess.PIPE, stderr=subprocess.STDOUT,
                              timeout=300, **more)

    def start(self, *words):
        return subprocess.Popen(words, env=self.environment, cwd=self.path, stdin=subprocess.DEVNULL, stdout=subprocess.DEVNULL, stderr=subprocess.DEVNULL)

    def put(self, name, text):
        path = pathlib.Path(self.path, name)
        path.parent.mkdir(parents=True, exist_ok=True)
        path.write_text(text)


def ffmpeg(room, tune, out, rate):
    room.run('ffmpeg', '-nostdin', '-v', 'error', '-y', '-sample_rate', str(rate), '-i', tune, '-f', 's16le', out)


def mpv(room, tune, out, rate):
    room.run('mpv', '--no-config', '--really-quiet', '--ao=pcm', '--ao-pcm-waveheader=no', f'--ao-pcm-file={out}', '--audio-format=s16',
             f'--demuxer-lavf-o=sample_rate={rate}', tune)


def mplayer(room, tune, out, rate):
    room.run('mplayer', '-really-quiet', '-noconfig', 'all', '-nolirc', '-demuxer', 'lavf', '-lavfdopts', f'o=sample_rate={rate}', '-vo', 'null',
             '-ao', f'pcm:nowaveheader:file={out}', tune)


def gmedec(room, tune, out, _):
    room.run('gst-launch-1.0', '-q', 'filesrc', f'location={tune}', '!', 'audio/x-spc', '!', 'gmedec', '!', 'filesink', f'location={out}')


def decodebin(room, tune, out, _):
    room.run('gst-launch-1.0', '-q', 'filesrc', f'location={tune}', '!', 'decodebin', '!', 'audioconvert', '!', 'audio/x-raw,format=S16LE', '!',
             'filesink', f'location={out}')


def vlc(room, tune, out, rate):
    """Run as nobody where it would be run as root, which it refuses."""
    as_nobody = ['setpriv', '--reuid=65534', '--regid=65534', '--clear-groups'] if os.geteuid() == 0 else []
    shutil.copy(tune, os.path.join(room.path, 'tune.spc'))
    for folder, _, files in os.walk(room.path):
        for path in [folder, *[os.path.join(folder, name) for name in files]]:
            if as_nobody:
                os.chown(path, 65534, 65534)
    room.run(*as_nobody, 'cvlc', '-q', '--no-color', '--demux=avformat', f'--avformat-options={{sample_rate={rate}}}', 'tune.spc',
             '--sout', '#std{access=file,mux=raw,dst=out.raw}', 'vlc://quit')
    made = os.path.join(room.path, 'out.raw')
    if os.path.exists(made):
        shutil.move(made, out)


def mpd(room, tune, out, rate):
    room.put('mpd.conf', 'music_directory "{0}/music"\ndb_file "{0}/db"\nbind_to_address "{0}/socket"\ndecoder {{\nplugin "ffmpeg"\nenabled "no"\n}}\n'
             'audio_output {{\ntype "pipe"\nname "file"\ncommand "cat >{1}"\nformat "{2}:16:2"\n}}\n'.format(room.path, out, rate))
    os.mkdir(os.path.join(room.path, 'music'))
    shutil.copy(tune, os.path.join(room.path, 'music', 'tune.spc'))
    room.environment['MPD_HOST'] = os.path.join(room.path, 'socket')
    daemon = room.start('mpd', '--no-daemon', os.path.join(room.path, 'mpd.conf'))
    wait_for(lambda: os.path.exists(room.environment['MPD_HOST']), 60)
    for words in (['update', '--wait'], ['add', 'tune.spc'], ['play']):
        room.run('mpc', '-q', *words)
    wait_for(lambda: b'[playing' not in room.run('mpc', 'status').stdout, 600)
    daemon.terminate()
    daemon.wait()


def qmmp(room, tune, out, _):
    room.put('.asoundrc', ALSA.format(out))
    room.put('config/qmmp/qmmprc', '[Output]\ndithering=false\n')
    room.put('.qmmp/qmmprc', '[Output]\ndithering=false\n')
    player, sizes = room.start('qmmp', tune), [-1]

    def is_over():
        """It doesn't end by itself: it is over once it has written nothing for twelve seconds."""
        sizes.append(os.path.getsize(out) if os.path.exists(out) else 0)
        return sizes[-1] > 0 and sizes[-24:] == [sizes[-1]] * 24

    wait_for(is_over, 600, 0.5)
    player.terminate()
    player.wait()


def wait_for(holds, seconds, step=0.2):
    end = time.time() + seconds
    while not holds() and time.time() < end:
        time.sleep(step)


PLAYERS = {'ffmpeg': ffmpeg, 'mpv': mpv, 'mplayer': mplayer, 'gmedec': gmedec, 'decodebin': decodebin, 'vlc': vlc, 'mpd': mpd, 'qmmp': qmmp}
NEEDED = {'gmedec': ['gst-launch-1.0'], 'decodebin': ['gst-launch-1.0'], 'vlc': ['cvlc', 'setpriv'], 'mpd': ['mpd', 'mpc']}


def missing(player):
    """The first program that a player needs and isn't there; '' where all are."""
    return next((name for name in NEEDED.get(player, [player]) if not shutil.which(name)), '')


def play(player, library, tune, rate=32000):
    """The bytes that a player makes of a tune with the libgme in a folder, or with the system's where that is ''."""
    with Room(library) as room, tempfile.TemporaryDirectory() as folder:
        out = os.path.join(folder, 'out.raw')
        os.chmod(folder, 0o777)
        PLAYERS[player](room, os.path.abspath(tune), out, rate)
        return pathlib.Path(out).read_bytes() if os.path.exists(out) else b''
