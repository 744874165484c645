// What is drawn of a whole tune: in each of its columns its loudness, and the level and the pitch of each voice.
import { VOICES } from './library.js';
import { noteOf } from './notes.js';

export const COLUMNS = 1024;
const MIN_SPAN = 12; // notes that a voice's part of the chart has room for, at least

/** Lines of a tune of so many frames, of which none is rendered yet. Of voice v the numbers stand from v * COLUMNS on. */
export function emptyLines(frames) {
  return { frames, rendered: 0, loudness: new Float32Array(COLUMNS), levels: new Uint16Array(VOICES * COLUMNS), pitches: new Uint16Array(VOICES * COLUMNS) };
}

/** The column of a frame. */
export const columnOf = (lines, frame) => Math.floor((frame / lines.frames) * COLUMNS);

/** How many columns are rendered to their end. */
export const columnsDone = (lines) => (lines.frames === 0 ? 0 : columnOf(lines, lines.rendered));

/** Adds the frames that come next, left and right by turns, and what shows of the voices behind them. A column has its maximum, and of each voice its
 * maximum level with the pitch at that moment. What shows behind a piece is also that of the columns which begin and end within it. */
export function addPiece(lines, frames, voices) {
  frames.forEach((value, index) => {
    const column = columnOf(lines, lines.rendered + (index >> 1));
    lines.loudness[column] = Math.max(lines.loudness[column], Math.abs(value) / 32768);
  });
  const last = columnOf(lines, lines.rendered + frames.length / 2 - 1);
  const first = Math.min(last, columnOf(lines, lines.rendered - 1) + 1);
  for (let column = first; column <= last; column++) addVoices(lines, column, voices);
  lines.rendered += frames.length / 2;
}

/** Has a column know what shows of the voices at a moment. */
function addVoices(lines, column, voices) {
  for (let voice = 0; voice < VOICES; voice++) {
    const [level, pitch] = [voices[4 * voice], voices[4 * voice + 1]];
    const index = voice * COLUMNS + column;
    if (level > lines.levels[index]) [lines.levels[index], lines.pitches[index]] = [level, pitch];
  }
}

/** The note of a voice in a column, or null where it is silent there. */
export function noteAt(lines, voice, column) {
  const index = voice * COLUMNS + column;
  return lines.levels[index] > 0 && lines.pitches[index] > 0 ? noteOf(lines.pitches[index]) : null;
}

/** The lowest and the highest note of a voice, moved apart if they are less than an octave apart; null if it is silent throughout. */
export function notesOf(lines, voice) {
  let [lowest, highest] = [Infinity, -Infinity];
  for (let column = 0; column < COLUMNS; column++) {
    const note = noteAt(lines, voice, column);
    if (note !== null) [lowest, highest] = [Math.min(lowest, note), Math.max(highest, note)];
  }
  if (lowest > highest) return null;
  const missing = Math.max(0, MIN_SPAN - (highest - lowest)) / 2;
  return { lowest: lowest - missing, highest: highest + missing };
}
