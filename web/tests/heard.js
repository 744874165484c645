// What the page gives to the sound card, compared with sound files of the program, frame by frame. For the browser.

const HEAD = 44;
const RATE = 32000;
const ALIKE = 64; // frames by which a place in a sound file is known

/** A sound file's frames, left and right by turns. */
export async function framesOf(name) {
  return new Int16Array((await (await fetch(`/test/${name}`)).arrayBuffer()).slice(HEAD));
}

/** Keeps the frames that come from a node of the page, and when something was pressed. */
export class Recording {
  static async of({ context, gain }) {
    const recording = new Recording();
    await context.audioWorklet.addModule('/test/recorder.js');
    const recorder = new AudioWorkletNode(context, 'recorder', { outputChannelCount: [2] });
    gain.connect(recorder).connect(context.destination); // it gives silence
    recorder.port.onmessage = ({ data: { left, right } }) => {
      for (let index = 0; index < left.length; index++) recording.frames.push(Math.round(32768 * left[index]), Math.round(32768 * right[index]));
    };
    return recording;
  }

  constructor() {
    this.frames = [];
  }

  /** How many frames were heard so far. */
  get count() {
    return this.frames.length / 2;
  }
}

const alike = (heard, index, wanted, frame) => heard[2 * index] === wanted[2 * frame] && heard[2 * index + 1] === wanted[2 * frame + 1];

/** The frame of a sound file at which what was heard from this index on stands, or -1. */
function placeOf(heard, index, wanted) {
  for (let frame = 0; frame < wanted.length / 2 - ALIKE; frame++) {
    let count = 0;
    while (count < ALIKE && alike(heard, index + count, wanted, frame + count)) count++;
    if (count === ALIKE) return frame;
  }
  return -1;
}

/** Follows what was heard through one sound file, and from some frame on through the next. Answers after how many milliseconds from the press on the next one is
 * heard, or in words what is wrong. `pressed` is how many frames were heard at the press. */
export function changeOver(heard, pressed, before, after) {
  const first = Math.max(0, pressed - RATE / 4);
  const last = heard.length / 2;
  const begin = placeOf(heard, first, before);
  if (begin < 0) return 'what was heard before the press is not in the render of before';
  let index = first;
  while (index < last && alike(heard, index, before, begin + index - first)) index++;
  if (index === last) return 'nothing has changed';
  const changed = index;
  while (index < last && alike(heard, index, after, begin + index - first)) index++;
  if (index < last) return `frame ${begin + index - first} is neither the next one of before nor of after`;
  if (index - changed < ALIKE) return 'too little was heard after the change';
  return Math.max(0, (1000 * (changed - pressed)) / RATE);
}
