// Runs of a tune, each with other voices muted: what makes a press on a voice quick and exact.
import { RATE } from './library.js';

const MARK_SECONDS = 5;
const PAGES = 4096; // of 256 bytes, for the marks of one run: 1 MB
const KEPT = 18; // runs: the one that is heard, and those that are one press away

/** A player and how far it has come: up to there a mark was taken each five seconds. */
export class Run {
  constructor(player) {
    this.player = player;
    this.furthest = 0;
  }

  get position() {
    return this.player.position;
  }

  /** The frames that come next, left and right by turns: at most `count`, and none after the tune's end unless it is endless. */
  play(count, endless) {
    const frames = (endless ? this.player.play(count) : this.player.playFaded(count)).slice();
    this.furthest = Math.max(this.furthest, this.position);
    return frames;
  }

  /** Goes towards a frame by running at most `max` frames, and returns whether it is there. In a part that is new it goes from mark to mark. */
  step(frame, max) {
    const known = frame <= this.furthest;
    if (!known && this.position !== this.furthest) {
      this.player.seekSome(this.furthest, max);
      return false;
    }
    const mark = (Math.floor(this.position / (MARK_SECONDS * RATE)) + 1) * MARK_SECONDS * RATE;
    this.player.seekSome(known ? frame : Math.min(frame, mark), max);
    this.furthest = Math.max(this.furthest, this.position);
    if (!known && this.position === mark) this.player.mark();
    return this.position === frame;
  }
}

/** The runs of one tune by the voices that are muted. */
export class Runs {
  /** `open` gives a player of a tune: open(spc, { pages, markSeconds, muted }). */
  constructor(open) {
    this.open = open;
    this.spc = null;
    this.runs = new Map(); // the one that was asked for last is last
  }

  /** Another tune: the runs of the one before are closed. */
  begin(spc) {
    for (const { player } of this.runs.values()) player.close();
    this.runs.clear();
    this.spc = spc;
  }

  /** The run with these voices muted. If as many as are kept are there, a new one takes the player of the one that was asked for longest ago, except of the
   * one to be spared. */
  of(muted, spared) {
    const run = this.runs.get(muted) ?? this.make(muted, spared);
    this.runs.delete(muted);
    this.runs.set(muted, run);
    return run;
  }

  make(muted, spared) {
    if (this.runs.size < KEPT) return new Run(this.open(this.spc, { pages: PAGES, markSeconds: MARK_SECONDS, muted }));
    const [oldest, { player }] = [...this.runs].find(([, run]) => run !== spared);
    this.runs.delete(oldest);
    player.seek(0); // there muting runs nothing again
    player.mute(muted);
    return new Run(player);
  }
}
