// Which voices are heard. Each is plain, muted or solo; if any is solo, only those that are solo are heard. Bit v is voice v.
import { VOICES } from './library.js';

const ALL = 2 ** VOICES - 1;

/** All are plain. */
export const PLAIN = { muted: 0, solo: 0 };

/** A press on a voice's mute: it is muted, and no longer solo; or plain, if it was muted. */
export const pressMute = ({ muted, solo }, voice) => ({ muted: muted ^ (1 << voice), solo: solo & ~(1 << voice) });

/** A press on a voice's solo, in the same way. */
export const pressSolo = ({ muted, solo }, voice) => ({ muted: muted & ~(1 << voice), solo: solo ^ (1 << voice) });

/** The voices that aren't heard. */
export const silentOf = ({ muted, solo }) => (solo ? ALL & ~solo : muted);

/** What isn't heard after one press more: each of these sets once, and none that is so now. */
export function onePressAway(mix) {
  const voices = Array.from({ length: VOICES }, (_, voice) => voice);
  const sets = voices.flatMap((voice) => [silentOf(pressMute(mix, voice)), silentOf(pressSolo(mix, voice))]);
  return [...new Set(sets)].filter((silent) => silent !== silentOf(mix));
}

/** The name of the sound file of a tune: it lists the voices that are heard, counted from 1, unless all are. */
export function downloadName(name, silent) {
  const heard = Array.from({ length: VOICES }, (_, voice) => voice + 1).filter((number) => !(silent & (1 << (number - 1))));
  const which = silent === 0 ? '' : heard.length === 0 ? ' (no voices)' : ` (${heard.length === 1 ? 'voice' : 'voices'} ${heard.join(' ')})`;
  return `${name.replace(/\.spc$/i, '')}${which}.wav`;
}
