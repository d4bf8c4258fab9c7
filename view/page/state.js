// The state of a session after a frame, from the changes of src/changes.rs.

const CHANGE = { ticks: 1, blocks: 2, outcome: 3, request: 4, slot: 5, semaphore: 6, mailbox: 7, queue: 8, timers: 9, tock: 14 };
const EVENT = { due: 10, woken: 11, lost: 12, issued: 13, dropped: 15 };
const BLOCK = { idle: 1, suspended: 2, event: 4, message: 8 };
const WAITS = BLOCK.event | BLOCK.message;
const DONE = 255;

// What a lane shows, and in which order the shares of a pixel are stacked.
const LANE = { running: 0, ready: 1, event: 2, message: 3, suspended: 4, idle: 5, none: 6 };
const LANE_NAMES = ["running", "ready", "event wait", "message wait", "suspended", "idle"];
const LANE_COLOURS = ["running", "ready", "event", "message", "suspended", "idle", "none"];

function laneOf(blocks, runs) {
  if (blocks & BLOCK.idle) return LANE.idle;
  if (blocks & BLOCK.suspended) return LANE.suspended;
  if (blocks & BLOCK.event) return LANE.event;
  if (blocks & BLOCK.message) return LANE.message;
  return runs ? LANE.running : LANE.ready;
}

// Lists begin with number 1; a list that changes is a new one, so that copies may share it.
class State {
  constructor(configuration) {
    const { tasks, named, queues } = configuration;
    this.configuration = configuration;
    this.ticks = 0;
    this.tocks = 0;
    this.blocks = new Uint8Array(tasks + 1);
    this.since = new Uint32Array(tasks + 1); // of a wait: its first frame
    this.outcomes = Array(tasks + 1).fill([0]);
    this.requests = Array(tasks + 1).fill([0, 0]);
    this.slots = Array(tasks + 1).fill(new Uint8Array(16));
    this.semaphores = new Uint8Array(named + tasks + 2 * queues.length + 1);
    this.mailboxes = Array(tasks + 1).fill([]);
    this.queues = Array(queues.length + 1).fill([]);
    this.timers = [];
    this.running = -1;
    this.events = [];
    this.changed = { tasks: [], queues: [], messages: false, timers: false };
  }

  copy() {
    const copy = Object.assign(Object.create(State.prototype), this);
    copy.blocks = this.blocks.slice();
    copy.since = this.since.slice();
    copy.semaphores = this.semaphores.slice();
    for (const list of ["outcomes", "requests", "slots", "mailboxes", "queues"]) copy[list] = this[list].slice();
    return copy;
  }

  lying() {
    return this.mailboxes.reduce((sum, mailbox) => sum + mailbox.length, 0);
  }

  // Carries out the changes of a frame that stand at a place, and tells where they end.
  apply(bytes, at, frame) {
    this.events = [];
    this.changed = { tasks: [], queues: [], messages: false, timers: false };
    for (;;) {
      const kind = bytes[at++];
      switch (kind) {
        case 0: return at;
        case CHANGE.ticks: this.ticks = bytes[at++]; break;
        case CHANGE.tock: this.tocks++; break;
        case CHANGE.blocks: this.setBlocks(bytes[at], bytes[at + 1], frame); at += 2; break;
        case CHANGE.outcome: {
          const end = at + 3 + bytes[at + 2];
          this.outcomes[bytes[at]] = [bytes[at + 1], ...bytes.subarray(at + 3, end)];
          at = end;
          break;
        }
        case CHANGE.request: {
          const width = bytes[at + 1] === 3 ? this.configuration.queues[bytes[at + 2] - 1][0] : 0;
          this.requests[bytes[at]] = [...bytes.subarray(at + 1, at + 3 + width)];
          at += 3 + width;
          break;
        }
        case CHANGE.slot: this.slots[bytes[at]] = bytes.subarray(at + 1, at + 17); at += 17; break;
        case CHANGE.semaphore: this.semaphores[bytes[at]] = bytes[at + 1]; at += 2; break;
        case CHANGE.mailbox: at = this.splice("mailboxes", bytes[at], bytes, at + 1); this.changed.messages = true; break;
        case CHANGE.queue: at = this.putAndTake(bytes, at); break;
        case CHANGE.timers: at = this.setTimers(bytes, at); break;
        case EVENT.due: this.events.push([kind, bytes[at], bytes[at + 1]]); at += 2; break;
        case EVENT.woken: this.wake(bytes[at], frame); this.events.push([kind, bytes[at], bytes[at + 1]]); at += 2; break;
        case EVENT.lost: this.events.push([kind, bytes[at]]); at += 1; break;
        case EVENT.dropped: this.events.push([kind, ...bytes.subarray(at, at + 3)]); at += 3; break;
        case EVENT.issued: this.events.push([kind, ...bytes.subarray(at, at + 4)]); at += 4; break;
        default: throw new Error(`the page's data has a change ${kind} at ${at - 1}`);
      }
    }
  }

  setBlocks(task, blocks, frame) {
    if ((this.blocks[task] ^ blocks) & WAITS) this.since[task] = frame;
    this.blocks[task] = blocks;
    this.changed.tasks.push(task);
  }

  // A task that was woken and waits again: since this frame.
  wake(task, frame) {
    if (this.blocks[task] & WAITS) this.since[task] = frame;
  }

  splice(name, number, bytes, at) {
    const [front, gone, came] = bytes.subarray(at, at + 3);
    const list = this[name][number].slice();
    const fresh = Array.from({ length: came }, (_, i) => [...bytes.subarray(at + 3 + 3 * i, at + 6 + 3 * i)]);
    list.splice(front, gone, ...fresh);
    this[name][number] = list;
    return at + 3 + 3 * came;
  }

  putAndTake(bytes, at) {
    const [number, taken, put] = bytes.subarray(at, at + 3);
    const width = this.configuration.queues[number - 1][0];
    const list = this.queues[number].slice(taken);
    for (let i = 0; i < put; i++) list.push(bytes.subarray(at + 3 + i * width, at + 3 + (i + 1) * width));
    this.queues[number] = list;
    this.changed.queues.push(number);
    return at + 3 + put * width;
  }

  setTimers(bytes, at) {
    const [front, gone, came] = bytes.subarray(at, at + 3);
    const reader = { place: at + 3 };
    const fresh = [];
    for (let i = 0; i < came; i++) {
      const [task, semaphore] = [bytes[reader.place++], bytes[reader.place++]];
      fresh.push({ task, semaphore, due: longNumber(bytes, reader), period: longNumber(bytes, reader) });
    }
    this.timers = this.timers.slice();
    this.timers.splice(front, gone, ...fresh);
    this.changed.timers = true;
    return reader.place;
  }

  // Tells each lane that may look otherwise, now that this task runs.
  settle(running, tell) {
    const tasks = this.changed.tasks;
    if (this.running === -1) {
      for (let task = 1; task < this.blocks.length; task++) tell(task, laneOf(this.blocks[task], task === running));
    }
    if (running !== this.running) tasks.push(running, Math.max(0, this.running));
    this.running = running;
    for (const task of tasks) {
      if (task > 0) tell(task, laneOf(this.blocks[task], task === running));
      else tell(0, running === 0 ? LANE.running : LANE.none);
    }
  }

  // The semaphore that is WAITING with a task, or 0.
  waitsOn(task) {
    return Math.max(0, this.semaphores.indexOf(task, 1));
  }
}

// A state that only looks whether changes are of one thing: t, s, q or m and a number.
class Touched extends State {
  constructor(configuration, key) {
    super(configuration);
    const [letter, number] = [key[0], Number(key.slice(1))];
    this.found = false;
    this.meet = (kind, place) => { if (kind === letter && Number(place) === number) this.found = true; };
    for (const list of ["requests", "slots"]) this[list] = watched(this[list], (task) => this.meet("t", task));
    this.semaphores = watched(this.semaphores, (semaphore) => this.meet("s", semaphore));
    this.outcomes = watched(this.outcomes, (task, [kind, message]) => {
      this.meet("t", task);
      if (kind === 2) this.meet("m", message);
    });
  }

  in(bytes, at) {
    this.found = false;
    this.apply(bytes, at, 0);
    return this.found;
  }

  setBlocks(task) { this.meet("t", task); }
  wake(task) { this.meet("t", task); }

  splice(name, number, bytes, at) {
    this.meet("t", number);
    const came = bytes[at + 2];
    for (let i = 0; i < came; i++) this.meet("m", bytes[at + 3 + 3 * i]);
    return at + 3 + 3 * came;
  }

  putAndTake(bytes, at) {
    this.meet("q", bytes[at]);
    return at + 3 + bytes[at + 2] * this.configuration.queues[bytes[at] - 1][0];
  }

  setTimers(bytes, at) {
    const reader = { place: at + 3 };
    for (let i = 0; i < bytes[at + 2]; i++) {
      this.meet("t", bytes[reader.place++]);
      this.meet("s", bytes[reader.place++]);
      longNumber(bytes, reader);
      longNumber(bytes, reader);
    }
    return reader.place;
  }
}

// A list that tells which place is written, and what.
function watched(list, meet) {
  return new Proxy(list, { set(target, place, value) { meet(place, value); target[place] = value; return true; } });
}
