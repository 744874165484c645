// libspcwave as the page calls it. Numbers are as spcwave.h has them: positions and lengths in frames, 32,000 a second; of muted voices bit v is voice v.

export const RATE = 32000;
export const MAX_FRAMES = 115200000; // an hour
export const MAX_BYTES = 1048576; // of an SPC file
export const VOICES = 8;
const FRAMES_AT_ONCE = 8192;
const TABLE_BYTES = 1024;
const OPTIONS_BYTES = 16;
const INFO_BYTES = 80;
const VOICE_BYTES = 8;

const Status = { OK: 0, SPC_LENGTH: 4, OUT_OF_MEMORY: 7, NOT_YET: 18 };
const TAGS = ['title', 'game', 'artist']; // the first of enum spcwave_tags

/** What is said of a status. */
const REFUSALS = {
  4: 'its length is not that of an SPC file (65,920 to 1,048,576 bytes)',
  5: 'it does not begin with “SNES-SPC700 Sound File Data”, as an SPC file does',
  6: 'the table of weights has not 1,024 bytes',
  7: 'there is not enough memory for it',
};

/** A file that the library refused, with the cause in words. */
export class Refused extends Error {
  constructor(status) {
    super(REFUSALS[status] ?? `status ${status}`);
    this.status = status;
  }
}

/** The library with a memory of its own. Its players share that memory, so all of it is used by one thread. */
export class Library {
  constructor(module) {
    this.calls = new WebAssembly.Instance(module, {}).exports;
    this.handle = this.allocate(8); // where a call reads or writes a player's address
    this.options = this.allocate(OPTIONS_BYTES);
    this.info = this.allocate(INFO_BYTES);
    this.voice = this.allocate(VOICE_BYTES);
    this.frames = this.allocate(4 * FRAMES_AT_ONCE);
    this.table = this.allocate(TABLE_BYTES);
    this.file = this.allocate(MAX_BYTES);
  }

  /** Bytes of the library's memory. */
  allocate(size) {
    const at = this.calls.web_take(size);
    if (at === 0) throw new Refused(Status.OUT_OF_MEMORY);
    return at;
  }

  view(Kind, at, count) {
    return new Kind(this.calls.memory.buffer, at, count);
  }

  /** Puts a file where calls read it. */
  put(spc) {
    if (spc.length > MAX_BYTES) throw new Refused(Status.SPC_LENGTH);
    this.view(Uint8Array, this.file, spc.length).set(spc);
  }

  /** What a file says: { frames, title, game, artist }. A file that is none is refused. */
  inspect(spc) {
    this.put(spc);
    this.view(Uint32Array, this.info, 1)[0] = INFO_BYTES;
    const status = this.calls.spcwave_inspect(this.file, BigInt(spc.length), this.info);
    if (status !== Status.OK) throw new Refused(status);
    const [, frames, , , ...texts] = this.view(Uint32Array, this.info, INFO_BYTES / 4);
    const text = (tag) => String.fromCharCode(...spc.subarray(texts[2 * tag], texts[2 * tag] + texts[2 * tag + 1])).trim();
    return { frames, ...Object.fromEntries(TAGS.map((name, tag) => [name, text(tag)])) };
  }

  /** Opens a player. `pages` of 256 bytes are for marks, one of which is taken each `markSeconds` while it plays. */
  open(spc, table, { pages = 256, markSeconds = 0, muted = 0 } = {}) {
    this.put(spc);
    this.view(Uint8Array, this.table, TABLE_BYTES).set(table.subarray(0, TABLE_BYTES));
    this.view(Uint32Array, this.options, OPTIONS_BYTES / 4).set([OPTIONS_BYTES, pages, markSeconds, muted]);
    const status = this.calls.spcwave_open(this.handle, this.file, BigInt(spc.length), this.table, BigInt(table.length), this.options);
    if (status !== Status.OK) throw new Refused(status);
    return new Player(this, this.view(Uint32Array, this.handle, 1)[0]);
  }
}

/** A player of one tune. */
export class Player {
  constructor(library, handle) {
    this.library = library;
    this.calls = library.calls;
    this.handle = handle;
  }

  /** Gives its memory back. */
  close() {
    this.library.view(Uint32Array, this.library.handle, 2).set([this.handle, 0]);
    this.calls.spcwave_close(this.library.handle);
  }

  /** Plays frames, at most 8,192: left and right by turns. They are gone at the library's next call. */
  play(count) {
    return this.played(this.calls.spcwave_play(this.handle, this.library.frames, BigInt(Math.min(count, FRAMES_AT_ONCE))));
  }

  /** The same, of the tune as it is rendered: none behind its length, and the last ones fade out. */
  playFaded(count) {
    return this.played(this.calls.spcwave_play_faded(this.handle, this.library.frames, BigInt(Math.min(count, FRAMES_AT_ONCE))));
  }

  played(count) {
    return this.library.view(Int16Array, this.library.frames, 2 * Number(count));
  }

  seek(frame) {
    this.calls.spcwave_seek(this.handle, frame);
  }

  /** Goes towards a frame by running at most `max` frames, 1 or more, and returns whether it is there. */
  seekSome(frame, max) {
    return this.calls.spcwave_seek_some(this.handle, frame, max) !== Status.NOT_YET;
  }

  /** Mutes these voices and no others. It runs the frames up to the position again, and all marks except that of frame 0 are gone. */
  mute(voices) {
    this.calls.spcwave_mute(this.handle, voices);
  }

  mark() {
    this.calls.spcwave_mark(this.handle);
  }

  get position() {
    return this.calls.spcwave_position(this.handle);
  }

  /** What shows of each voice at the position: its level, pitch, output and source, eight times. */
  voices() {
    const { library } = this;
    const shown = new Int16Array(4 * VOICES);
    for (let voice = 0; voice < VOICES; voice++) {
      this.calls.spcwave_voice(this.handle, voice, library.voice);
      shown.set(library.view(Int16Array, library.voice, 4), 4 * voice);
    }
    return shown;
  }
}

/** The module and the table of weights, from the page's own folder. */
export async function load() {
  const fetched = async (name) => {
    const answer = await fetch(new URL(name, import.meta.url));
    if (!answer.ok) throw new Error(`${name} could not be read`);
    return answer.arrayBuffer();
  };
  const [code, table] = await Promise.all([fetched('spcwave.wasm'), fetched('gauss.table')]);
  return { module: await WebAssembly.compile(code), table: new Uint8Array(table) };
}
