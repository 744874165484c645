// What is drawn: the sound that is heard, the voices, and the chart of the whole tune.
import { VOICES } from './library.js';
import { COLUMNS, columnsDone, noteAt, notesOf } from './lines.js';
import { noteName } from './notes.js';

const MAX_LEVEL = 2047;
const PICTURES_READ = 30; // pictures after which a screen reader gets the levels again
const QUIET = 0.3; // how opaque the part of a voice is that isn't heard

/** A canvas as large as it is shown, with its pen; `scale` is how many of its dots make a CSS pixel. */
function penOf(canvas) {
  const scale = window.devicePixelRatio || 1;
  const [width, height] = [Math.round(canvas.clientWidth * scale), Math.round(canvas.clientHeight * scale)];
  if (canvas.width !== width || canvas.height !== height) [canvas.width, canvas.height] = [width, height];
  const pen = canvas.getContext('2d');
  pen.clearRect(0, 0, width, height);
  const style = getComputedStyle(canvas);
  return { pen, width, height, scale, color: (name) => style.getPropertyValue(name) };
}

/** The frames that are heard, both sides together, as a curve. */
export function drawWave(canvas, frames) {
  const { pen, width, height, scale, color } = penOf(canvas);
  const count = frames.length / 2;
  pen.strokeStyle = color('--mark');
  pen.lineWidth = 1.5 * scale;
  pen.beginPath();
  for (let frame = 0; frame < count; frame++) {
    const value = (frames[2 * frame] + frames[2 * frame + 1]) / 131072;
    pen.lineTo((frame * width) / count, height * (0.5 - value));
  }
  pen.stroke();
}

/** One voice's part of the chart: its level as height from below, its note as a line. */
function drawVoice({ pen, width, scale, color }, lines, voice, top, height) {
  const notes = notesOf(lines, voice);
  const wide = width / COLUMNS;
  const thick = 1.5 * scale;
  const count = columnsDone(lines);
  pen.fillStyle = color.level;
  for (let column = 0; column < count; column++) {
    const tall = (lines.levels[voice * COLUMNS + column] / MAX_LEVEL) * height;
    pen.fillRect(column * wide, top + height - tall, wide + 0.5, tall);
  }
  pen.fillStyle = color.note;
  for (let column = 0; column < count; column++) {
    const note = noteAt(lines, voice, column);
    if (note === null) continue;
    const high = (note - notes.lowest) / (notes.highest - notes.lowest);
    pen.fillRect(column * wide, top + (1 - high) * (height - thick), wide + 0.5, thick);
  }
}

/** The whole tune as far as it is rendered: its loudness, and below that a part for each voice, as high as its row in CSS pixels. */
export function drawChart(canvas, lines, silent, row) {
  const { pen, width, height, scale, color } = penOf(canvas);
  const colors = { level: color('--level'), note: color('--mark'), line: color('--line') };
  const part = row * scale;
  const head = height - VOICES * part; // of the loudness
  pen.fillStyle = colors.line;
  for (let voice = 0; voice < VOICES; voice++) pen.fillRect(0, Math.round(head + voice * part), width, scale);
  if (!lines) return;
  pen.fillStyle = colors.note;
  for (let column = 0; column < columnsDone(lines); column++) {
    const tall = Math.max(scale, lines.loudness[column] * head * 0.9);
    pen.fillRect((column * width) / COLUMNS, (head - tall) / 2, width / COLUMNS + 0.5, tall);
  }
  for (let voice = 0; voice < VOICES; voice++) {
    pen.globalAlpha = silent & (1 << voice) ? QUIET : 1;
    drawVoice({ pen, width, scale, color: colors }, lines, voice, head + voice * part + 2 * scale, part - 3 * scale);
  }
  pen.globalAlpha = 1;
}

/** Replaces a text by another. */
function write(cell, text) {
  if (cell.textContent !== text) cell.textContent = text;
}

/** A button of a voice. */
function voiceButton(letter, name, pressed) {
  const button = document.createElement('button');
  button.type = 'button';
  button.textContent = letter;
  button.title = name;
  button.setAttribute('aria-label', name);
  button.setAttribute('aria-pressed', 'false');
  button.onclick = pressed;
  return button;
}

/** The rows of the voices, each with its buttons. Voices count from 1 here, as the keys do. */
export class VoiceRows {
  /** `onMute` and `onSolo` take the voice that is pressed, from 0 on. */
  constructor(body, { onMute, onSolo }) {
    this.pictures = 0;
    this.rows = Array.from({ length: VOICES }, (_, voice) => {
      const row = body.insertRow();
      const name = document.createElement('th');
      name.scope = 'row';
      name.textContent = voice + 1;
      row.append(name);
      const [buttons, level, note, source] = Array.from({ length: 4 }, () => row.insertCell());
      const mute = voiceButton('M', `Mute voice ${voice + 1}`, () => onMute(voice));
      const solo = voiceButton('S', `Solo voice ${voice + 1}`, () => onSolo(voice));
      buttons.append(mute, solo);
      buttons.className = 'buttons';
      level.className = 'level';
      note.className = 'note';
      source.className = 'source';
      const meter = document.createElement('span');
      meter.setAttribute('role', 'meter');
      meter.setAttribute('aria-label', `Level of voice ${voice + 1}`);
      meter.setAttribute('aria-valuemin', 0);
      meter.setAttribute('aria-valuemax', 100);
      meter.setAttribute('aria-valuenow', 0);
      level.append(meter);
      return { row, mute, solo, meter, note, source };
    });
  }

  /** How high a row is, in CSS pixels. */
  get height() {
    return this.rows[0].row.getBoundingClientRect().height;
  }

  /** Which voices are muted, which are solo, and which aren't heard. */
  showMix({ muted, solo }, silent) {
    this.rows.forEach((it, voice) => {
      const bit = 1 << voice;
      it.mute.setAttribute('aria-pressed', Boolean(muted & bit));
      it.solo.setAttribute('aria-pressed', Boolean(solo & bit));
      it.row.classList.toggle('silent', Boolean(silent & bit));
    });
  }

  /** What shows of the voices: level, pitch, output and source of each. */
  show(voices) {
    this.pictures = (this.pictures + 1) % PICTURES_READ;
    this.rows.forEach(({ meter, note, source }, voice) => {
      const [level, pitch, , sample] = voices.subarray(4 * voice, 4 * voice + 4);
      meter.style.transform = `scaleX(${level / MAX_LEVEL})`;
      if (this.pictures === 0) meter.setAttribute('aria-valuenow', Math.round((100 * level) / MAX_LEVEL));
      write(note, level > 0 ? noteName(pitch) : '–');
      write(source, level > 0 ? String(sample) : '–');
    });
  }
}
