// Sound files.
import { RATE } from './library.js';

export const HEAD = 44;

/** The head of a sound file of so many bytes of frames, as RIFF/WAVE has it: PCM, two channels, 16 bits. */
export function waveHead(bytes) {
  const view = new DataView(new ArrayBuffer(HEAD));
  const text = (at, word) => [...word].forEach((letter, offset) => view.setUint8(at + offset, letter.charCodeAt(0)));
  text(0, 'RIFF');
  view.setUint32(4, HEAD - 8 + bytes, true);
  text(8, 'WAVEfmt ');
  view.setUint32(16, 16, true);
  view.setUint16(20, 1, true);
  view.setUint16(22, 2, true);
  view.setUint32(24, RATE, true);
  view.setUint32(28, 4 * RATE, true);
  view.setUint16(32, 4, true);
  view.setUint16(34, 16, true);
  text(36, 'data');
  view.setUint32(40, bytes, true);
  return new Uint8Array(view.buffer);
}
