// A session as the page holds it: packed bytes, and what one pass over them finds. src/changes.rs and src/recording.rs
// write them.

const KEPT_EACH = 256; // a full state is kept at least each so many frames ..
const KEPT_MOST = 2000; // .. but not more of them than this

// Base64 text to bytes, unpacked.
async function unpack(text) {
  const letters = atob(text.trim());
  const packed = new Uint8Array(letters.length);
  for (let i = 0; i < letters.length; i++) packed[i] = letters.charCodeAt(i);
  const stream = new Blob([packed]).stream().pipeThrough(new DecompressionStream("deflate-raw"));
  return new Uint8Array(await new Response(stream).arrayBuffer());
}

// The parts, each behind its length.
function partsOf(bytes) {
  const parts = [];
  const at = { place: 0 };
  while (at.place < bytes.length) {
    const length = longNumber(bytes, at);
    parts.push(bytes.subarray(at.place, at.place + length));
    at.place += length;
  }
  return parts;
}

// Seven bits a byte, the lowest first.
function longNumber(bytes, at) {
  let number = 0, factor = 1;
  for (;;) {
    const byte = bytes[at.place++];
    number += (byte & 127) * factor;
    if (byte < 128) return number;
    factor *= 128;
  }
}

const byteAt = (digits, place) => parseInt(digits.substr(2 * place, 2), 16) || 0;

// Values that change now and then: the frames in which they do, and the values from there on.
class Steps {
  constructor() {
    this.from = [];
    this.value = [];
  }

  add(frame, value) {
    const last = this.from.length - 1;
    if (last >= 0 && this.value[last] === value) return;
    if (last >= 0 && this.from[last] === frame) this.value[last] = value;
    else this.from.push(frame), this.value.push(value);
  }

  // The place of the step that a frame is in.
  place(frame) {
    return Math.max(0, after(this.from, frame) - 1);
  }

  at(frame) {
    return this.value[this.place(frame)];
  }
}

// How many of the sorted numbers are at most this one.
function after(sorted, number) {
  let low = 0, high = sorted.length;
  while (low < high) {
    const middle = (low + high) >> 1;
    if (sorted[middle] <= number) low = middle + 1; else high = middle;
  }
  return low;
}

class Session {
  static async read(text) {
    const [header, asked, answered, frames] = partsOf(await unpack(text));
    const decoder = new TextDecoder();
    return new Session(JSON.parse(decoder.decode(header)), decoder.decode(asked), decoder.decode(answered), frames);
  }

  constructor(header, asked, answered, bytes) {
    Object.assign(this, header);
    this.bytes = bytes;
    this.count = header.frames + 1; // with the configuration
    this.names = new Map(header.names);
    this.asked = asked.split("\n").slice(0, -1).map((line) => line.split("\t"));
    this.answered = answered.split("\n").slice(0, -1).map((line) => line.split("\t"));
    this.refusals = Uint8Array.from(this.answered, ([digits]) => byteAt(digits, 0));
    this.runs = Uint8Array.from(this.answered, ([digits]) => byteAt(digits, 1));
    this.again = Uint8Array.from(this.answered, ([digits]) => byteAt(digits, 2));
    this.callers = Uint8Array.from(this.asked, (asked) => Number(asked[1]));
    this.codes = Uint8Array.from(this.asked, ([digits]) => byteAt(digits, 0));
    this.scan();
  }

  // One pass over all frames.
  scan() {
    const { count, bytes } = this;
    this.ask = new Uint32Array(count);
    this.answer = new Uint32Array(count);
    this.place = new Uint32Array(count);
    this.tocks = new Uint32Array(count);
    this.keptEach = Math.max(KEPT_EACH, Math.ceil(count / KEPT_MOST));
    this.kept = [];
    this.found = { refusals: [], reissues: [], tocks: [], ticks: [], interrupts: [], lost: [] };
    this.woken = { frame: [], from: [], to: [] };
    this.lanes = Array.from({ length: this.configuration.tasks + 1 }, () => new Steps());
    this.series = new Series(this.configuration);
    const state = new State(this.configuration);
    const at = { place: 0 };
    for (let frame = 0; frame < count; frame++) {
      this.ask[frame] = longNumber(bytes, at);
      this.answer[frame] = longNumber(bytes, at);
      this.place[frame] = at.place;
      at.place = state.apply(bytes, at.place, frame);
      this.tocks[frame] = state.tocks;
      this.note(frame, state);
      if (frame % this.keptEach === 0) this.kept.push(state.copy());
    }
  }

  note(frame, state) {
    const answer = this.answer[frame];
    const code = frame === 0 ? 0 : this.codes[this.ask[frame]];
    const running = this.runs[answer];
    state.settle(running, (task, lane) => this.lanes[task].add(frame, lane));
    if (this.refusals[answer]) return void this.found.refusals.push(frame);
    if (this.again[answer]) this.found.reissues.push(frame);
    if (code === 0x10) this.found.ticks.push(frame);
    if (code === 0x11) this.found.interrupts.push(frame);
    if (frame > 0 && this.tocks[frame] !== this.tocks[frame - 1]) this.found.tocks.push(frame);
    for (const event of state.events) this.noteEvent(frame, code, event);
    this.series.add(frame, state, this.again[answer]);
  }

  // Who woke whom: the caller, a task whose request was issued again, or the clock and interrupts.
  noteEvent(frame, code, [kind, task]) {
    if (kind === EVENT.issued) this.source = [frame, task];
    if (kind === EVENT.lost) this.found.lost.push(frame);
    if (kind !== EVENT.woken) return;
    const issued = this.source && this.source[0] === frame ? this.source[1] : 0;
    this.woken.frame.push(frame);
    const service = code !== 0x10 && code !== 0x11;
    this.woken.from.push(issued || (service ? this.callers[this.ask[frame]] : -code));
    this.woken.to.push(task);
  }

  // The whole state after a frame.
  state(frame) {
    const from = Math.floor(frame / this.keptEach);
    const state = this.kept[from].copy();
    for (let next = from * this.keptEach + 1; next <= frame; next++) state.apply(this.bytes, this.place[next], next);
    return state;
  }

  refusal(frame) { return this.refusals[this.answer[frame]]; }
  running(frame) { return this.runs[this.answer[frame]]; }
  reissues(frame) { return this.again[this.answer[frame]]; }
  caller(frame) { return frame === 0 ? 0 : this.callers[this.ask[frame]]; }
  askedWords(frame) { return this.asked[this.ask[frame]][3]; }
  askedDigits(frame) { return this.asked[this.ask[frame]][0]; }
  answerWords(frame) { return this.answered[this.answer[frame]][1]; }
  answerDigits(frame) { return this.answered[this.answer[frame]][0]; }

  // A test of frames: whether one names or changes this, a letter and a number.
  toucher(key) {
    const names = Uint8Array.from(this.asked, (asked) => asked[2].split(" ").includes(key) ? 1 : 0);
    const touched = new Touched(this.configuration, key);
    return (frame) => (frame > 0 && names[this.ask[frame]] === 1) || touched.in(this.bytes, this.place[frame]);
  }
}

// What the plots show.
class Series {
  constructor(configuration) {
    this.queues = configuration.queues.map(() => new Steps());
    this.messages = new Steps();
    this.timers = new Steps();
    this.reissues = new Steps();
  }

  add(frame, state, reissues) {
    for (const queue of state.changed.queues) this.queues[queue - 1].add(frame, state.queues[queue].length);
    if (frame === 0) this.queues.forEach((steps, place) => steps.add(0, state.queues[place + 1].length));
    if (frame === 0 || state.changed.messages) this.messages.add(frame, state.lying());
    if (frame === 0 || state.changed.timers) this.timers.add(frame, state.timers.length);
    if (reissues) this.reissues.add(frame, reissues), this.reissues.add(frame + 1, 0);
    else this.reissues.add(frame, 0);
  }
}
