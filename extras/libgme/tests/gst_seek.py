"""Lets GStreamer's gmedec seek, and writes what comes afterwards to a file: gst_seek.py TUNE SECONDS OUT"""
import sys

import gi
gi.require_version('Gst', '1.0')
from gi.repository import Gst  # noqa: E402


def main():
    tune, seconds, out = sys.argv[1:]
    Gst.init(None)
    pipeline = Gst.parse_launch('filesrc name=tune ! audio/x-spc ! gmedec name=decoder ! fakesink name=sink sync=false signal-handoffs=true')
    pipeline.get_by_name('tune').set_property('location', tune)
    heard, has_sought = [], [False]

    def hear(_, buffer, __):
        if has_sought[0]:
            heard.append(buffer.extract_dup(0, buffer.get_size()))

    pipeline.get_by_name('sink').connect('handoff', hear)
    pipeline.set_state(Gst.State.PAUSED)
    pipeline.get_state(10 * Gst.SECOND)
    has_sought[0] = True
    place = int(float(seconds) * Gst.SECOND)
    seek = Gst.Event.new_seek(1.0, Gst.Format.TIME, Gst.SeekFlags.FLUSH, Gst.SeekType.SET, place, Gst.SeekType.NONE, 0)
    taken = pipeline.get_by_name('decoder').get_static_pad('src').send_event(seek)
    pipeline.set_state(Gst.State.PLAYING)
    pipeline.get_bus().timed_pop_filtered(120 * Gst.SECOND, Gst.MessageType.EOS | Gst.MessageType.ERROR)
    pipeline.set_state(Gst.State.NULL)
    with open(out, 'wb') as file:
        file.write(b''.join(heard))
    sys.exit(not taken)


main()
