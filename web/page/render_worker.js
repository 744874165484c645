// Renders a whole tune in the background, with some voices muted: its lines for the chart, and its sound file for the download.
import { Library } from './library.js';
import { addPiece, emptyLines } from './lines.js';
import { HEAD, waveHead } from './wave.js';

const PIECE = 512; // frames: the voices are asked for their levels after each
const REPORT = 100; // milliseconds after which the page gets the lines again

onmessage = ({ data: { inputs, spc, muted } }) => {
  const library = new Library(inputs.module);
  const { frames } = library.inspect(spc);
  const player = library.open(spc, inputs.table, { muted });
  const file = new Uint8Array(HEAD + 4 * frames);
  file.set(waveHead(4 * frames));
  const lines = emptyLines(frames);
  let reported = performance.now();
  while (lines.rendered < frames) {
    const piece = player.playFaded(PIECE);
    file.set(new Uint8Array(piece.buffer, piece.byteOffset, piece.byteLength), HEAD + 4 * lines.rendered);
    addPiece(lines, piece, player.voices());
    if (performance.now() - reported < REPORT) continue;
    postMessage({ lines });
    reported = performance.now();
  }
  postMessage({ lines, file: file.buffer }, [file.buffer]);
};
