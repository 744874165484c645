// Notes of pitches. No file says at which note its samples were recorded: one at its own speed (4,096) counts as middle C.

const OWN_SPEED = 4096;
const MIDDLE_C = 60;
const NAMES = ['C', 'C♯', 'D', 'D♯', 'E', 'F', 'F♯', 'G', 'G♯', 'A', 'A♯', 'B'];

/** The number of a pitch's note, with its parts, as MIDI counts: the middle C is 60. The pitch is above 0. */
export const noteOf = (pitch) => MIDDLE_C + 12 * Math.log2(pitch / OWN_SPEED);

/** The name of the note that is nearest to a pitch, as C4; – for the pitch 0, at which nothing plays on. */
export function noteName(pitch) {
  if (pitch === 0) return '–';
  const note = Math.round(noteOf(pitch));
  return NAMES[((note % 12) + 12) % 12] + (Math.floor(note / 12) - 1);
}
