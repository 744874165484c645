// The page: a list of tunes, one of which plays, with some of its voices or all.
import { clock } from './clock.js';
import { Library, load, MAX_BYTES, MAX_FRAMES, RATE, Refused, VOICES } from './library.js';
import { aboutOf, lineOf, playable, refusalsOf, titleOf } from './list.js';
import { drawChart, drawWave, VoiceRows } from './pictures.js';
import { Sound } from './sound.js';
import { downloadName, onePressAway, PLAIN, pressMute, pressSolo, silentOf } from './voices.js';

const ARROW = 5 * RATE; // frames that an arrow key goes
const SETTLED = 400; // milliseconds without a press on a voice after which the tune is rendered anew
const id = (name) => document.getElementById(name);

const state = {
  inputs: null, // the module and the table
  library: null, // reads what files say
  rows: null, // of the voices
  sound: null, // a promise, once something first plays
  tunes: [], // see list.js
  current: -1, // the index of the tune that plays
  plays: false,
  mix: PLAIN, // which voices are muted or solo
  renderer: null, // the worker that renders the whole tune
  settling: 0, // the timer of the next one
  lines: null, // what is drawn of the tune, as far as it is rendered
};

const showStatus = (text) => {
  id('status').textContent = text;
};

const tuneNow = () => state.tunes[state.current];

// The list

/** A file as a tune of the list, or why it is refused. */
async function read(file) {
  const { name, size } = file;
  if (size > MAX_BYTES) return { name, refusal: new Refused(4).message };
  let spc;
  try {
    spc = new Uint8Array(await file.arrayBuffer());
  } catch {
    return { name, refusal: 'it could not be read' }; // a folder, or a file that is gone
  }
  try {
    return { name, spc, ...state.library.inspect(spc) };
  } catch (error) {
    if (error instanceof Refused) return { name, refusal: error.message };
    throw error;
  }
}

/** Adds files to the list. The first of them that isn't refused plays, unless one plays already. */
async function add(files) {
  const added = await Promise.all(files.map(read));
  const first = state.tunes.length;
  state.tunes.push(...added);
  added.forEach((tune, offset) => showTune(tune, first + offset));
  id('list').hidden = state.tunes.length === 0;
  showStatus(refusalsOf(added));
  const next = playable(state.tunes, first, 1);
  if (next >= 0 && !state.plays) await start(next);
}

/** A line of the list. */
function showTune(tune, index) {
  const item = document.createElement('li');
  const button = document.createElement('button');
  button.type = 'button';
  button.textContent = lineOf(tune);
  button.disabled = Boolean(tune.refusal);
  button.onclick = () => start(index);
  item.append(button);
  id('tunes').append(item);
}

// The tune that plays

function openSound() {
  state.sound ??= Sound.open(state.inputs, {
    onEnded,
    onComes: (comes) => id('coming').classList.toggle('comes', comes),
    onStopped: () => setPlays(false),
    onFailed: () => showStatus('The tune can’t be played: there is not enough memory.'),
  }).catch((error) => {
    state.sound = null;
    throw error;
  });
  return state.sound;
}

/** What the engine is to know beside where to go. */
const words = () => ({
  muted: silentOf(state.mix),
  likely: document.hidden ? [] : onePressAway(state.mix),
  endless: id('endless').checked,
});

/** Plays a tune of the list from its beginning. */
async function start(index) {
  const sound = await openSound();
  state.current = index;
  const tune = tuneNow();
  id('title').textContent = titleOf(tune);
  id('about').textContent = aboutOf(tune);
  document.title = `${titleOf(tune)} – spcwave`;
  document.body.classList.add('playing');
  id('player').hidden = false;
  id('position').max = tune.frames;
  [...id('tunes').querySelectorAll('button')].forEach((button, other) => {
    if (other === index) button.setAttribute('aria-current', 'true');
    else button.removeAttribute('aria-current');
  });
  state.lines = null;
  renderAll();
  setVolume();
  sound.go(0, { ...words(), spc: tune.spc });
  await setPlays(true);
}

async function setPlays(plays) {
  const sound = await openSound();
  state.plays = plays;
  id('play').setAttribute('aria-label', plays ? 'Pause' : 'Play');
  id('play-sign').setAttribute('href', plays ? '#sign-pause' : '#sign-play');
  if (await sound.run(plays)) return;
  showStatus('Press Play: this browser wants a press before a page may sound.');
  await setPlays(false);
}

async function setVolume() {
  if (state.sound) (await state.sound).volume = (id('volume').value / 100) ** 2;
}

async function seek(frame) {
  if (state.current < 0) return;
  const last = id('endless').checked ? MAX_FRAMES : tuneNow().frames;
  (await state.sound).go(Math.max(0, Math.min(last, Math.round(frame))), words());
}

/** Goes so many frames back or on from what is heard. */
async function move(frames) {
  if (state.current >= 0) seek((await state.sound).now().position + frames);
}

/** At a tune's end: on to the next one, or stop. An endless one comes to its end after an hour, and begins again. */
async function onEnded() {
  const next = playable(state.tunes, state.current + 1, 1);
  if (id('endless').checked) seek(0);
  else if (next >= 0) await start(next);
  else {
    await setPlays(false);
    seek(0);
  }
}

/** To the tune before or behind. Where there is none before, the first one begins again. */
function skip(step) {
  const index = playable(state.tunes, state.current + step, step);
  if (index >= 0) start(index);
  else if (step < 0) seek(0);
}

// The voices

/** Has other voices be heard, where the tune is. */
async function setMix(mix) {
  state.mix = mix;
  state.rows.showMix(mix, silentOf(mix));
  drawAll();
  if (state.current < 0) return;
  (await state.sound).change(words());
  clearTimeout(state.settling);
  state.settling = setTimeout(renderAll, SETTLED);
  showRendering(0);
}

/** Renders the whole tune in the background as it is heard, for the chart and for the download. */
function renderAll() {
  clearTimeout(state.settling);
  state.renderer?.terminate();
  state.renderer = new Worker('render_worker.js', { type: 'module' });
  showRendering(0);
  const { name, spc } = tuneNow();
  const silent = silentOf(state.mix);
  state.renderer.onerror = () => {
    id('download-text').textContent = 'Too long to download';
  };
  state.renderer.onmessage = ({ data: { lines, file } }) => {
    state.lines = lines;
    drawAll();
    if (file) showDownload(file, downloadName(name, silent));
    else showRendering(lines.rendered / lines.frames);
  };
  state.renderer.postMessage({ inputs: state.inputs, spc, muted: silent });
}

/** There is nothing to download yet. */
function showRendering(part) {
  const link = id('download');
  if (link.href) URL.revokeObjectURL(link.href);
  link.removeAttribute('href');
  link.removeAttribute('title');
  link.setAttribute('aria-disabled', 'true');
  id('download-text').textContent = `Rendering, ${Math.floor(100 * part)} %`;
}

function showDownload(file, name) {
  const link = id('download');
  link.href = URL.createObjectURL(new Blob([file], { type: 'audio/wav' }));
  link.download = name;
  link.title = name;
  link.removeAttribute('aria-disabled');
  id('download-text').textContent = silentOf(state.mix) ? 'Download these voices' : 'Download as WAV';
}

// What is shown

function showTime(frame) {
  const time = `${clock(frame)} / ${clock(tuneNow().frames)}`;
  if (id('time').textContent === time) return;
  id('time').textContent = time;
  id('position').setAttribute('aria-valuetext', time);
}

/** What is drawn of the whole tune. */
function drawAll() {
  if (!id('player').hidden) drawChart(id('chart'), state.lines, silentOf(state.mix), state.rows.height);
}

/** What changes from picture to picture. */
function drawNow(sound) {
  const { position, shown } = sound.now();
  if (shown) {
    drawWave(id('wave'), shown.frames);
    state.rows.show(shown.voices);
  }
  if (id('position').matches(':active')) return;
  id('position').value = position;
  showTime(position);
}

async function draw() {
  if (state.current >= 0) drawNow(await state.sound);
  requestAnimationFrame(draw);
}

// What is done

const KEYS = {
  ' ': () => state.current >= 0 && setPlays(!state.plays),
  ArrowLeft: () => move(-ARROW),
  ArrowRight: () => move(ARROW),
  '?': () => id('explanation').showModal(),
};

/** What a key of digits does, by its place on the keyboard: with shift it gives another sign. */
function onDigit(digit, shift) {
  if (digit === 0) setMix(PLAIN);
  else if (digit <= VOICES) setMix((shift ? pressSolo : pressMute)(state.mix, digit - 1));
}

/** Whether a key belongs to what has the focus: space to what is pressed by it, arrows to the volume. */
const isOwnKey = ({ key, target }) =>
  key === ' ' ? target.closest('button, a, input[type=checkbox], input[type=file]') : key.startsWith('Arrow') && target === id('volume');

/** Keys belong to the page, unless something that takes them itself has the focus. */
function onKey(event) {
  if (event.ctrlKey || event.altKey || event.metaKey || id('explanation').open || isOwnKey(event)) return;
  const [, digit] = /^(?:Digit|Numpad)(\d)$/.exec(event.code) ?? [];
  if (digit === undefined && !KEYS[event.key]) return;
  event.preventDefault();
  const held = event.repeat && !event.key.startsWith('Arrow');
  if (held) return;
  if (digit === undefined) KEYS[event.key]();
  else onDigit(Number(digit), event.shiftKey);
}

async function playExample() {
  const answer = await fetch('tune.spc');
  await add([new File([await answer.arrayBuffer()], 'tune.spc')]);
}

function listenToFiles() {
  id('files').onchange = ({ target }) => {
    add([...target.files]);
    target.value = '';
  };
  id('example').onclick = playExample;
  document.addEventListener('dragover', (event) => {
    event.preventDefault();
    document.body.classList.add('over');
  });
  document.addEventListener('dragleave', ({ relatedTarget }) => {
    if (relatedTarget === null) document.body.classList.remove('over');
  });
  document.addEventListener('drop', (event) => {
    event.preventDefault();
    document.body.classList.remove('over');
    add([...event.dataTransfer.files]);
  });
}

function listen() {
  listenToFiles();
  id('help').onclick = () => id('explanation').showModal();
  id('play').onclick = () => setPlays(!state.plays);
  id('previous').onclick = () => skip(-1);
  id('next').onclick = () => skip(1);
  id('volume').oninput = setVolume;
  id('endless').onchange = () => move(0);
  id('position').oninput = ({ target }) => showTime(Number(target.value));
  id('position').onchange = ({ target }) => seek(Number(target.value));
  document.addEventListener('keydown', onKey);
  document.addEventListener('visibilitychange', async () => state.current >= 0 && (await state.sound).change(words()));
  new ResizeObserver(drawAll).observe(id('chart'));
  window.matchMedia('(prefers-color-scheme: dark)').addEventListener('change', drawAll);
  window.addEventListener('unhandledrejection', ({ reason }) => showStatus(`Something went wrong: ${reason.message ?? reason}.`));
}

/** Stores the page for use without a network. At localhost only if `?offline` asks for it, because another page may be served there later. */
async function keepOffline() {
  const wanted = window.location.protocol === 'https:' || window.location.search === '?offline';
  if (!wanted || !navigator.serviceWorker) return;
  await navigator.serviceWorker.register('offline.js');
  await navigator.serviceWorker.ready;
  id('kept').textContent = 'This page is kept in the browser: it also works without a network.';
}

try {
  if (!window.isSecureContext) throw new Error('a browser gives it sound only over https, or at localhost');
  state.inputs = await load();
  state.library = new Library(state.inputs.module);
  state.rows = new VoiceRows(id('voices'), {
    onMute: (voice) => setMix(pressMute(state.mix, voice)),
    onSolo: (voice) => setMix(pressSolo(state.mix, voice)),
  });
  listen();
  showStatus('');
  requestAnimationFrame(draw);
  document.body.dataset.ready = 'yes';
  keepOffline();
} catch (error) {
  showStatus(`The page can’t be made ready: ${error.message}.`);
}
