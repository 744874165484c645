// Makes the frames that are heard, a quarter of a second ahead. The page orders a tune, a frame to go to, or the voices that are muted. A change of these
// is exact: while one run is heard another runs to the same frame with the new voices muted, and then its frames replace those that wait.
import { Runs } from './runs.js';

export const PIECE = 512; // frames that are sent in one message: 16 milliseconds
const AHEAD = 8192; // frames that wait to be heard, at most
const LEAD = 1536; // frames between what is handed over and where another run is heard from
const SLICE = 8000; // frames that are run in one call: a millisecond or a few
const BEHIND = 32000; // frames by which a run that may be wanted stays behind, at most

export class Engine {
  /** `open` gives players, as Runs wants it; `send` takes what goes to the output, and `report` what goes to the page. */
  constructor(open, send, report) {
    [this.send, this.report] = [send, report];
    this.runs = new Runs(open);
    this.turn = 0; // of the last order to go somewhere: what was sent for one before is known by its turn
    this.endless = false;
    this.muted = 0;
    this.likely = []; // voices that may be muted next
    this.heard = null; // the run that is heard
    this.coming = null; // the run that is heard next: { run, frame }, without a frame where it follows the one that is heard
    this.next = 0; // the frame that the output hands over next
    this.ended = false; // the end is sent
  }

  /** An order: { turn, spc, seek, muted, endless, likely }, of which any but the turn may be missing. */
  order({ turn, spc, seek, ...words }) {
    Object.assign(this, words);
    if (spc) this.runs.begin(spc);
    if (seek !== undefined) {
      Object.assign(this, { turn, heard: null, coming: null, next: seek, ended: false });
      this.send({ turn });
    }
    const run = this.runs.of(this.muted, this.heard);
    this.coming = run === this.heard ? null : { run, frame: seek ?? this.coming?.frame };
    this.report({ turn: this.turn, comes: this.coming !== null });
  }

  /** The output reports which frame it hands over next. */
  handsOver({ turn, next }) {
    if (turn === this.turn) this.next = next;
  }

  /** Does the most urgent work, for a millisecond or a few. Returns whether there was anything to do. */
  work() {
    if (this.heard && !this.ended && this.heard.position - this.next < AHEAD) this.sendPiece();
    else if (this.coming) this.approach();
    else return this.rehearse();
    return true;
  }

  sendPiece() {
    const { heard, turn } = this;
    const at = heard.position;
    const frames = heard.play(PIECE, this.endless);
    this.ended = frames.length === 0;
    this.send({ turn, at, frames });
    if (!this.ended) this.report({ turn, shown: { at: heard.position, voices: heard.player.voices(), frames } });
  }

  /** The frame at which another run takes over: one that isn't handed over yet, and that those sent lead up to. */
  get takeover() {
    return Math.min(this.next + LEAD, this.heard.position);
  }

  approach() {
    const { run, frame } = this.coming;
    if (!run.step(frame ?? this.takeover, SLICE)) return;
    Object.assign(this, { heard: run, coming: null, ended: false });
    this.report({ turn: this.turn, comes: false });
  }

  /** Has one of the runs that may be wanted next keep up with what is heard. */
  rehearse() {
    if (!this.heard) return false;
    const late = this.likely.map((muted) => this.runs.of(muted, this.heard)).find((run) => Math.abs(run.position - this.takeover) > BEHIND);
    late?.step(this.takeover, SLICE);
    return late !== undefined;
  }
}
