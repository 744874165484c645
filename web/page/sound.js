// The sound of the page: the engine's thread makes frames, the output hands them to the sound card, and the page learns what is heard.
import { PIECE } from './engine.js';
import { RATE } from './library.js';

const KEPT = 64; // pieces that are kept to be shown: a page that is hidden shows none
const ANSWER = 500; // milliseconds in which a browser answers that sounds, where it may

const wait = (milliseconds) => new Promise((go) => setTimeout(go, milliseconds));

/** Adds to a list in the order of `at`, in place of all from there on. */
function keep(list, item) {
  while (list.length > 0 && list.at(-1).at >= item.at) list.pop();
  if (list.push(item) > KEPT) list.shift();
}

export class Sound {
  /** `listener` has a function each for: onEnded, the last frame was heard; onComes(whether), what was ordered isn't there yet; onStopped, something else took
   * the sound; onFailed, there is no memory. */
  static async open(inputs, listener) {
    const sound = new Sound();
    sound.listener = listener;
    sound.context = new AudioContext({ sampleRate: RATE, latencyHint: 'balanced' });
    await sound.context.audioWorklet.addModule('worklet.js');
    sound.output = new AudioWorkletNode(sound.context, 'spcwave-output', { numberOfInputs: 0, outputChannelCount: [2] });
    sound.gain = sound.context.createGain();
    sound.output.connect(sound.gain).connect(sound.context.destination);
    sound.engine = new Worker('engine_worker.js', { type: 'module' });
    const { port1, port2 } = new MessageChannel();
    sound.output.port.postMessage({ engine: port1 }, [port1]);
    sound.engine.postMessage({ inputs, output: port2 }, [port2]);
    sound.listen();
    return sound;
  }

  constructor() {
    this.turn = 0; // of the last order to go somewhere
    this.plays = false;
    this.resuming = false;
    this.position = 0; // the frame that was heard last
    this.begun = []; // when pieces began to sound: { at, time }
    this.shown = []; // what shows of pieces, { at, voices, frames }, each at its end
  }

  listen() {
    this.output.port.onmessage = ({ data }) => {
      if (data.turn !== this.turn) return;
      if (data.ended) this.end();
      else keep(this.begun, data);
    };
    this.engine.onmessage = ({ data }) => {
      if (data.turn !== this.turn) return;
      if (data.shown) keep(this.shown, data.shown);
      else this.listener.onComes(data.comes);
    };
    this.engine.onerror = () => this.listener.onFailed();
    this.context.onstatechange = () => {
      if (this.context.state !== 'running' && this.plays && !this.resuming) this.listener.onStopped();
    };
  }

  /** The worklet has handed over the last frame: it is heard a little later. */
  async end() {
    const { turn } = this;
    await wait(1000 * (this.context.outputLatency || 0));
    if (turn === this.turn) this.listener.onEnded();
  }

  /** Goes to a frame, of another tune where `words` has one: what was ordered before is dropped. */
  go(frame, words) {
    this.turn++;
    [this.begun, this.shown, this.position] = [[], [], frame];
    this.engine.postMessage({ ...words, seek: frame, turn: this.turn });
  }

  /** Changes what is heard where it is: see Engine.order. */
  change(words) {
    this.engine.postMessage(words);
  }

  set volume(volume) {
    this.gain.gain.value = volume;
  }

  /** Plays or pauses. Returns whether it could: a browser may hold back sound until something is pressed, and then doesn't answer. */
  async run(plays) {
    this.plays = plays;
    this.output.port.postMessage({ runs: plays });
    if (!plays) {
      await this.context.suspend();
      return true;
    }
    this.resuming = true;
    const pressed = navigator.userActivation?.hasBeenActive;
    const answered = this.context.resume().then(() => true);
    const sounds = await (pressed ? answered : Promise.race([answered, wait(ANSWER).then(() => false)]));
    this.resuming = false;
    return sounds || !this.plays;
  }

  /** The frame that is heard now, and what shows of it, or undefined: pieces are made and handed over before that. */
  now() {
    const time = this.context.getOutputTimestamp().contextTime || this.context.currentTime;
    const { begun, shown } = this;
    while (begun.length > 1 && begun[1].time <= time) begun.shift();
    if (this.plays && begun[0]?.time <= time) this.position = begun[0].at + Math.min(PIECE, Math.floor((time - begun[0].time) * RATE));
    while (shown.length > 1 && shown[1].at <= this.position) shown.shift();
    return { position: this.position, shown: shown[0] };
  }
}
