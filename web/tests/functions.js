// Tries the page's functions that need no browser, in node: functions.js SITE
import { deepStrictEqual as same } from 'node:assert';
import { failing } from './rows.js';

const site = process.argv[2];
Object.assign(globalThis, { AudioWorkletProcessor: class {}, registerProcessor() {} }); // a worklet's own, which node hasn't
const { clock } = await import(`${site}/clock.js`);
const { noteName, noteOf } = await import(`${site}/notes.js`);
const { aboutOf, lineOf, playable, refusalsOf, titleOf } = await import(`${site}/list.js`);
const { downloadName, onePressAway, PLAIN, pressMute, pressSolo, silentOf } = await import(`${site}/voices.js`);
const { addPiece, COLUMNS, columnsDone, emptyLines, noteAt, notesOf } = await import(`${site}/lines.js`);
const { waveHead } = await import(`${site}/wave.js`);
const { Queue } = await import(`${site}/worklet.js`);

const TUNE = { name: 'a.spc', frames: 62 * 32000 + 31999, title: 'A', game: 'B', artist: '' };
const UNTITLED = { name: 'b.spc', frames: 0, title: '', game: '', artist: '' };
const REFUSED = { name: 'c.spc', refusal: 'it is none' };

/** A piece of frames whose left side counts on from `at`, and whose right side says which piece it was. */
const piece = (at, count, mark = 0) => ({ at, frames: Int16Array.from({ length: 2 * count }, (_, index) => (index % 2 ? mark : at + (index >> 1))) });

/** What a queue hands over next: `count` frames, each with both sides, and what it returns. */
function taken(queue, count) {
  const [left, right] = [new Float32Array(count), new Float32Array(count)];
  const result = queue.fill(left, right);
  return { left: [...left].map((value) => value * 32768), right: [...right].map((value) => value * 32768), ...result };
}

/** What shows of voices of which one has this level and pitch. */
function shows(voice, level, pitch) {
  const voices = new Int16Array(32);
  voices.set([level, pitch], 4 * voice);
  return voices;
}

const TESTS = {
  'a clock shows whole seconds': () => {
    same([0, 31999, 32000, 59 * 32000, 60 * 32000, 3600 * 32000].map(clock), ['0:00', '0:00', '0:01', '0:59', '1:00', '60:00']);
  },
  'notes go by octaves and semitones': () => {
    same([4096, 8192, 2048, 4340, 0].map(noteName), ['C4', 'C5', 'C3', 'C♯4', '–']);
    same([noteOf(4096), noteOf(16384)], [60, 84]);
  },
  'a list shows titles, lengths and refusals': () => {
    same([TUNE, UNTITLED].map(titleOf), ['A', 'b.spc']);
    same(aboutOf(TUNE), 'B · 1:02');
    same([TUNE, UNTITLED, REFUSED].map(lineOf), ['A, 1:02', 'b.spc, 0:00', 'c.spc: refused, it is none']);
    same(refusalsOf([TUNE, REFUSED]), 'c.spc was refused: it is none.');
  },
  'what is refused is passed over, forwards and backwards': () => {
    const tunes = [TUNE, REFUSED, REFUSED, UNTITLED, REFUSED];
    same([playable(tunes, 1, 1), playable(tunes, 2, -1), playable(tunes, 4, 1), playable(tunes, -1, -1), playable([], 0, 1)], [3, 0, -1, -1, -1]);
  },
  'a voice is plain, muted or solo': () => {
    const muted = pressMute(PLAIN, 2);
    same([muted, pressMute(muted, 2)], [{ muted: 4, solo: 0 }, PLAIN]);
    same(pressSolo(muted, 2), { muted: 0, solo: 4 });
    same(pressMute(pressSolo(PLAIN, 2), 2), muted);
    same([PLAIN, muted, pressSolo(muted, 0), pressSolo(pressSolo(PLAIN, 0), 7)].map(silentOf), [0, 4, 0xfe, 0x7e]);
  },
  'the sets of one press more come once each': () => {
    same(onePressAway(PLAIN).sort((one, other) => one - other), [1, 2, 4, 8, 16, 32, 64, 127, 128, 191, 223, 239, 247, 251, 253, 254]);
    same(onePressAway({ muted: 0xfe, solo: 0 }).includes(0xfe), false);
  },
  'the name of a download lists the voices that are heard': () => {
    same([0, 0xfe, 0x0c, 0xff].map((silent) => downloadName('a.SPC', silent)), ['a.wav', 'a (voice 1).wav', 'a (voices 1 2 5 6 7 8).wav', 'a (no voices).wav']);
  },
  'a column has its loudest value, and of a voice its maximum level with the note of that moment': () => {
    const lines = emptyLines(2 * COLUMNS);
    addPiece(lines, Int16Array.of(-16384, 0), shows(3, 100, 8192));
    addPiece(lines, Int16Array.of(1, 8192, 0, 0), shows(3, 50, 4096));
    same([lines.rendered, columnsDone(lines), lines.loudness[0], lines.loudness[1]], [3, 1, 0.5, 0]);
    same([noteAt(lines, 3, 0), noteAt(lines, 3, 1), noteAt(lines, 2, 0)], [72, 60, null]);
    same([notesOf(lines, 3), notesOf(lines, 2)], [{ lowest: 60, highest: 72 }, null]);
  },
  'a short tune has a note in each column': () => {
    const lines = emptyLines(COLUMNS);
    for (let start = 0; start < COLUMNS; start += 4) addPiece(lines, new Int16Array(8), shows(0, 1, 4096));
    const columns = Array.from({ length: COLUMNS }, (_, column) => noteAt(lines, 0, column));
    same([columnsDone(lines), columns.filter((note) => note !== 60).length], [COLUMNS, 0]);
  },
  'a voice of one note is drawn in the middle of an octave': () => {
    const lines = emptyLines(COLUMNS);
    addPiece(lines, Int16Array.of(0, 0), shows(0, 1, 4096));
    same(notesOf(lines, 0), { lowest: 54, highest: 66 });
  },
  'the head of a sound file': () => {
    const head = Buffer.from(waveHead(400));
    same([head.toString('latin1', 0, 4), head.readUInt32LE(4), head.toString('latin1', 8, 16)], ['RIFF', 436, 'WAVEfmt ']);
    same([16, 1, 2, 32000, 128000, 4, 16], [head.readUInt32LE(16), head.readUInt16LE(20), head.readUInt16LE(22), head.readUInt32LE(24), head.readUInt32LE(28), head.readUInt16LE(32), head.readUInt16LE(34)]);
    same([head.toString('latin1', 36, 40), head.readUInt32LE(40), head.length], ['data', 400, 44]);
  },
  'a queue hands over its pieces in order, and returns what began and ended': () => {
    const queue = new Queue();
    queue.put(piece(10, 3));
    queue.put(piece(13, 2));
    queue.put(piece(15, 0));
    same(taken(queue, 4), { left: [10, 11, 12, 13], right: [0, 0, 0, 0], begun: [{ at: 10, offset: 0 }, { at: 13, offset: 3 }], used: true, ended: false });
    same(taken(queue, 4), { left: [14, 0, 0, 0], right: [0, 0, 0, 0], begun: [], used: true, ended: true });
    same(taken(queue, 1).ended, false);
  },
  'a piece takes the place of all from its first frame on': () => {
    const queue = new Queue();
    [piece(0, 4), piece(4, 4), piece(8, 4), piece(12, 0)].forEach((it) => queue.put(it));
    same(taken(queue, 2).left, [0, 1]);
    queue.put(piece(6, 3, 7));
    same(taken(queue, 9), { left: [2, 3, 4, 5, 6, 7, 8, 0, 0], right: [0, 0, 0, 0, 7, 7, 7, 0, 0], begun: [{ at: 4, offset: 2 }, { at: 6, offset: 4 }], used: true, ended: false });
  },
  'of a piece that comes late the rest is heard, without a gap': () => {
    const queue = new Queue();
    queue.put(piece(0, 8));
    taken(queue, 5);
    queue.put(piece(2, 2, 7));
    queue.put(piece(4, 4, 7));
    same(taken(queue, 4), { left: [5, 6, 7, 0], right: [7, 7, 7, 0], begun: [{ at: 5, offset: 0 }], used: true, ended: false });
  },
};

process.exit(failing(TESTS) ? 1 : 0);
