// The list of tunes. A tune is { name, spc, frames, title, game, artist }; a file that was refused is { name, refusal }.
import { clock } from './clock.js';

/** What a tune is called: by its tag, or else by its file. */
export const titleOf = (tune) => tune.title || tune.name;

/** What the page shows of a tune beside its title. */
export const aboutOf = (tune) => [tune.game, tune.artist, clock(tune.frames)].filter(Boolean).join(' · ');

/** A tune's line in the list. */
export const lineOf = (tune) => (tune.refusal ? `${tune.name}: refused, ${tune.refusal}` : `${titleOf(tune)}, ${clock(tune.frames)}`);

/** What is said of those that were refused. */
export const refusalsOf = (tunes) => tunes.filter((tune) => tune.refusal).map((tune) => `${tune.name} was refused: ${tune.refusal}.`).join(' ');

/** The first index from this one on, by steps of 1 or -1, of a tune that wasn't refused; -1 where there is none. */
export function playable(tunes, index, step) {
  let found = index;
  while (tunes[found]?.refusal) found += step;
  return tunes[found] ? found : -1;
}
