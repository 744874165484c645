// Hands the test what goes to the sound card: each block of frames, both sides.
class Recorder extends AudioWorkletProcessor {
  process([[left, right]]) {
    if (left) this.port.postMessage({ left: left.slice(), right: right.slice() });
    return true;
  }
}

registerProcessor('recorder', Recorder);
