// Compares what the page's library plays with sound files of the program, some of them with muted voices. In node: samples.js SITE SPC=WAV[=MUTED].. , where
// MUTED is what --mute had; in a browser the function alone is taken.

const HEAD = 44;
const SEEKS = 200;
const PLAYED = 100; // frames after each seek, fewer where the end is nearer
const AT_ONCE = 1000; // frames that are played at once, and that a seek by parts runs at once

/** Numbers that look random and are the same each time. */
function* picks(seed) {
  for (let x = seed; ; ) {
    x = (Math.imul(x, 1664525) + 1013904223) >>> 0;
    yield x;
  }
}

const same = (one, other) => one.length === other.length && one.every((value, index) => value === other[index]);

/** The first frame from which on a player doesn't play what it should to the end, or -1. */
function differsAt(player, wanted) {
  for (let at = player.position; 2 * at < wanted.length; ) {
    const made = player.playFaded(AT_ONCE);
    if (made.length === 0 || !same(made, wanted.subarray(2 * at, 2 * at + made.length))) return at;
    at += made.length / 2;
  }
  return player.playFaded(AT_ONCE).length === 0 ? -1 : wanted.length / 2;
}

function seekByParts(player, frame) {
  while (!player.seekSome(frame, AT_ONCE));
}

/** What of a tune differs from its sound file, in words; nothing where all is the same. Its voices are muted a third on, while it plays. */
export function differences(library, spc, table, wav, muted) {
  const wanted = new Int16Array(wav.slice(HEAD).buffer);
  const frames = wanted.length / 2;
  const player = library.open(spc, table, { pages: 4096, markSeconds: 5 });
  player.seek(Math.floor(frames / 3));
  player.mute(muted);
  let found = differsAt(player, wanted);
  player.seek(0);
  if (found < 0) found = differsAt(player, wanted);
  const random = picks(wanted.length);
  for (let turn = 0; turn < SEEKS && found < 0; turn++) {
    const frame = random.next().value % frames;
    if (turn % 2 === 0) player.seek(frame);
    else seekByParts(player, frame);
    if (!same(player.playFaded(PLAYED), wanted.subarray(2 * frame, 2 * (frame + PLAYED)))) found = frame;
  }
  player.close();
  return found < 0 ? '' : `frames from ${found} on differ`;
}

if (globalThis.process?.versions?.node) {
  const { readFileSync } = await import('node:fs');
  const [site, ...rows] = process.argv.slice(2);
  const { Library } = await import(`${site}/library.js`);
  const library = new Library(await WebAssembly.compile(readFileSync(`${site}/spcwave.wasm`)));
  const table = readFileSync(`${site}/gauss.table`);
  let wrong = 0;
  for (const row of rows) {
    const [spc, wav, muted = '00'] = row.split('=');
    const found = differences(library, readFileSync(spc), table, new Uint8Array(readFileSync(wav)), parseInt(muted, 16));
    console.log(`${found ? 'FAILS' : 'holds'}  node: ${spc.split('/').pop()} with ${muted} muted, and ${SEEKS} seeks ${found}`);
    wrong += Boolean(found);
  }
  process.exit(wrong ? 1 : 0);
}
