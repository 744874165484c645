// The engine in a thread of its own, away from the page and from the sound card's.
import { Engine } from './engine.js';
import { Library } from './library.js';

let engine;
let works = false;

/** Lets messages in, and continues immediately: a timer would wait for milliseconds. */
const { port1: bell, port2: ear } = new MessageChannel();
ear.onmessage = () => {
  works = engine.work();
  if (works) bell.postMessage(null);
};

function wake() {
  if (!works) bell.postMessage(null);
  works = true;
}

function begin({ inputs, output }) {
  const library = new Library(inputs.module);
  const open = (spc, options) => library.open(spc, inputs.table, options);
  engine = new Engine(open, (piece) => output.postMessage(piece), (message) => postMessage(message));
  output.onmessage = ({ data }) => {
    engine.handsOver(data);
    wake();
  };
}

onmessage = ({ data }) => {
  if (data.inputs) return begin(data);
  engine.order(data);
  return wake();
};
