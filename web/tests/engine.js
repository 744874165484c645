// Tries the engine, the queue before the sound card and the library together, in node: engine.js SITE SPC MUTED=WAV.. , with a sound file of the program for each
// set of muted voices. What is handed over is compared with these, frame by frame.
import { readFileSync } from 'node:fs';
import { failing } from './rows.js';

const HEAD = 44;
const BLOCK = 128; // frames that a sound card asks for at once
const QUARTER = 8000; // frames of a quarter of a second

const [site, file, ...rows] = process.argv.slice(2);
Object.assign(globalThis, { AudioWorkletProcessor: class {}, registerProcessor() {} }); // a worklet's own, which node hasn't
const { Engine } = await import(`${site}/engine.js`);
const { Library } = await import(`${site}/library.js`);
const { Queue } = await import(`${site}/worklet.js`);

const library = new Library(await WebAssembly.compile(readFileSync(`${site}/spcwave.wasm`)));
const spc = readFileSync(file);
const table = readFileSync(`${site}/gauss.table`);
const wanted = Object.fromEntries(rows.map((row) => {
  const [muted, wav] = row.split('=');
  return [parseInt(muted, 16), new Int16Array(new Uint8Array(readFileSync(wav)).slice(HEAD).buffer)];
}));
const sets = Object.keys(wanted).map(Number);

/** An engine with a queue, and what was handed over. Between two blocks the engine works a few times, as often as it might on a slow processor. */
class Page {
  constructor() {
    this.queue = new Queue();
    this.opened = 0;
    const open = (tune, options) => {
      this.opened++;
      return library.open(tune, table, options);
    };
    this.engine = new Engine(open, (piece) => (piece.frames ? this.queue.put(piece) : this.queue.empty()), () => {});
    this.heard = []; // of each block { at, frames }
    this.turn = 0;
  }

  order(words) {
    if ('seek' in words) this.turn++;
    this.engine.order({ ...words, turn: this.turn });
  }

  /** Hands over so many blocks; returns whether the end is reached. */
  play(blocks, works = 4) {
    let ended = false;
    for (let block = 0; block < blocks && !ended; block++) {
      for (let work = 0; work < works && this.engine.work(); work++);
      const [left, right] = [new Float32Array(BLOCK), new Float32Array(BLOCK)];
      const at = this.queue.next;
      ended = this.queue.fill(left, right).ended;
      const count = this.queue.next - at;
      const frames = Int16Array.from({ length: 2 * count }, (_, index) => 32768 * (index % 2 ? right : left)[index >> 1]);
      if (count > 0) this.heard.push({ at, frames });
      if (at !== null) this.engine.handsOver({ turn: this.turn, next: this.queue.next });
    }
    return ended;
  }
}

/** Throws where a frame of what was heard is missing or doubled, or is of none of the renders that it may be of. */
function check(heard, wantedAt) {
  let next = heard[0].at;
  for (const { at, frames } of heard) {
    if (at !== next) throw new Error(`frame ${at} follows ${next - 1}`);
    next = at + frames.length / 2;
    for (let frame = at; frame < next; frame++) {
      const index = 2 * (frame - at);
      const fits = (muted) => frames[index] === wanted[muted][2 * frame] && frames[index + 1] === wanted[muted][2 * frame + 1];
      if (!wantedAt(frame).some(fits)) throw new Error(`frame ${frame} is of another render`);
    }
  }
}

/** The renders that a frame may be of: with these voices muted at first, and with those of each press { at, muted } a quarter of a second later at the latest. */
function rendersAt(frame, first, presses) {
  const now = presses.findLast(({ at }) => frame >= at);
  if (!now) return [first];
  const before = presses[presses.indexOf(now) - 1]?.muted ?? first;
  return frame < now.at + QUARTER ? [before, now.muted] : [now.muted];
}

const equal = (one, other, what) => {
  if (one !== other) throw new Error(`${what}: ${one}, not ${other}`);
};

const TESTS = {
  'a tune is handed over as it is rendered, to its end': () => {
    const page = new Page();
    page.order({ spc, seek: 0, muted: sets[0] });
    equal(page.play(1e6), true, 'it ends');
    check(page.heard, () => [sets[0]]);
    equal(page.queue.next, wanted[sets[0]].length / 2, 'frames');
  },
  'a press on a voice is heard within a quarter of a second, to the frame, and no frame is missing or doubled': () => {
    const page = new Page();
    page.order({ spc, seek: 0, muted: sets[0] });
    const presses = [];
    for (const muted of [...sets.slice(1), sets[0]]) {
      page.play(500);
      presses.push({ at: page.queue.next, muted });
      page.order({ muted });
    }
    page.play(500);
    check(page.heard, (frame) => rendersAt(frame, sets[0], presses));
  },
  'of several presses in a row the last is heard': () => {
    const page = new Page();
    page.order({ spc, seek: 64000, muted: sets[0] });
    page.play(200);
    for (const muted of sets) {
      page.order({ muted });
      page.play(1, 1);
    }
    const at = page.queue.next;
    page.play(500);
    check(page.heard.filter((block) => block.at >= at + QUARTER), () => [sets.at(-1)]);
  },
  'a press that is taken back changes nothing': () => {
    const page = new Page();
    page.order({ spc, seek: 0, muted: sets[0] });
    page.play(300);
    page.order({ muted: sets[1] });
    page.order({ muted: sets[0] });
    page.play(300);
    check(page.heard, () => [sets[0]]);
  },
  'a seek goes on with the voices of now': () => {
    const page = new Page();
    page.order({ spc, seek: 0, muted: sets[0] });
    page.play(300);
    page.order({ muted: sets[1] });
    page.play(300);
    page.heard = [];
    page.order({ seek: 12345 });
    page.play(300);
    equal(page.heard[0].at, 12345, 'it begins at');
    check(page.heard, () => [sets[1]]);
  },
  'runs that may be wanted come along, and a player serves another one where as many are kept': () => {
    const page = new Page();
    page.order({ spc, seek: 0, muted: sets[0], likely: sets });
    page.play(600, 100);
    for (const muted of sets) equal(Math.abs(page.engine.runs.of(muted).position - page.queue.next) < 2 * 32000, true, `the run without ${muted} is near`);
    for (let muted = 0; muted < 40; muted++) page.engine.runs.of(muted, page.engine.heard);
    equal(page.opened, 18, 'players');
    const press = { at: page.queue.next, muted: sets[1] };
    page.order({ muted: press.muted });
    page.play(600);
    check(page.heard, (frame) => rendersAt(frame, sets[0], [press]));
  },
};

process.exit(failing(TESTS) ? 1 : 0);
