// Hands frames to the sound card. The engine sends pieces, each with the turn that it belongs to; the output reports to it which frame it hands over next, and
// to the page when each piece begins to sound. It imports nothing: not every browser lets a worklet do that.

/** A piece without its frames from this one on. */
const before = (piece, frame) => ({ at: piece.at, frames: piece.frames.subarray(0, 2 * (frame - piece.at)) });

/** A piece without its frames in front of this one. */
const from = (piece, frame) => ({ at: frame, frames: piece.frames.subarray(2 * (frame - piece.at)) });

/** Pieces that are to be handed over, one behind the other. A piece is { at, frames }: the frame that it begins at, and its frames, left and right by turns.
 * One without frames is the end. */
export class Queue {
  constructor() {
    this.empty();
  }

  empty() {
    this.pieces = [];
    this.next = null; // the frame that is handed over next, once a piece has come
  }

  /** Takes a piece in place of all from its first frame on. What is handed over already stays so: only the rest of the piece counts. */
  put(piece) {
    this.next ??= piece.at;
    this.pieces = this.pieces
      .filter((it) => it.at < piece.at)
      .map((it) => (it.at + it.frames.length / 2 > piece.at ? before(it, piece.at) : it))
      .filter((it) => it.frames.length === 0 || it.at + it.frames.length / 2 > this.next);
    const ends = piece.frames.length === 0;
    const rest = ends || piece.at >= this.next ? piece : from(piece, this.next);
    if (ends || rest.frames.length > 0) this.pieces.push(rest);
  }

  /** Hands over as many frames as there is room for and as are here. Returns where pieces began, each { at, offset }; whether one is used up; and whether the
   * end is reached. */
  fill(left, right) {
    const result = { begun: [], used: false, ended: false };
    let offset = 0;
    while (offset < left.length && this.pieces[0]?.frames.length > 0) {
      const [{ at, frames }] = this.pieces;
      if (this.next === at) result.begun.push({ at, offset });
      const first = this.next - at;
      const count = Math.min(left.length - offset, frames.length / 2 - first);
      for (let index = 0; index < count; index++) {
        left[offset + index] = frames[2 * (first + index)] / 32768;
        right[offset + index] = frames[2 * (first + index) + 1] / 32768;
      }
      offset += count;
      this.next += count;
      if (first + count === frames.length / 2) {
        this.pieces.shift();
        result.used = true;
      }
    }
    if (this.pieces[0]?.frames.length === 0) {
      this.pieces.shift();
      result.ended = true;
    }
    return result;
  }
}

class Output extends AudioWorkletProcessor {
  constructor() {
    super();
    this.queue = new Queue();
    this.turn = 0; // of the last order
    this.runs = false;
    this.port.onmessage = ({ data }) => {
      if (data.engine) {
        this.engine = data.engine;
        this.engine.onmessage = ({ data: piece }) => this.take(piece);
      }
      if ('runs' in data) this.runs = data.runs;
    };
  }

  /** Takes a piece of this turn; the first message of a later one empties the queue. */
  take(piece) {
    if (piece.turn > this.turn) {
      this.turn = piece.turn;
      this.queue.empty();
    }
    if (piece.turn === this.turn && piece.frames) this.queue.put(piece);
  }

  process(_, [[left, right]]) {
    if (!this.runs) return true;
    const { turn } = this;
    const { begun, used, ended } = this.queue.fill(left, right);
    for (const { at, offset } of begun) this.port.postMessage({ turn, at, time: currentTime + offset / sampleRate });
    if (used) this.engine.postMessage({ turn, next: this.queue.next });
    if (ended) this.port.postMessage({ turn, ended });
    return true;
  }
}

registerProcessor('spcwave-output', Output);
