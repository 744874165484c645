// Frames as a clock shows them.
import { RATE } from './library.js';

/** Minutes and whole seconds: 1:02. */
export function clock(frames) {
  const seconds = Math.floor(frames / RATE);
  return `${Math.floor(seconds / 60)}:${String(seconds % 60).padStart(2, '0')}`;
}
