// All tables after the chosen frame, in words, with what the frame changed.

const hexOf = (bytes) => Array.from(bytes, (byte) => byte.toString(16).padStart(2, "0").toUpperCase()).join("");
const grouped = (count) => count.toLocaleString("en");
const counted = (count, what) => `${grouped(count)} ${what}${count === 1 ? "" : "s"}`;

// Things by their names, as src/words.rs says them.
class Speech {
  constructor(session) {
    const { tasks, named, queues, pairs } = session.configuration;
    Object.assign(this, { names: session.names, named, nameable: named + tasks, queues: queues.length, pairs });
  }

  task(task) { return task === 0 ? "the null task" : this.names.get(`t${task}`) || `task ${task}`; }
  queue(queue) { return `queue ${this.names.get(`q${queue}`) || queue}`; }
  message(message) { return `message ${this.names.get(`m${message}`) || message}`; }
  letter([message, sender]) { return `${this.message(message)} from ${this.task(sender)}`; }

  semaphore(number) {
    const name = this.names.get(`s${number}`);
    if (name) return `semaphore ${name}`;
    const side = this.isNotFull(number) ? "not-full" : "not-empty";
    if (number > this.nameable) return `${side} of ${this.queue(this.queueOf(number))}`;
    const owner = number > this.named && this.names.get(`t${number - this.named}`);
    return owner ? `${owner}'s own semaphore` : `semaphore ${number}`;
  }

  queueOf(semaphore) { return Math.ceil((semaphore - this.nameable) / 2); }
  isNotFull(semaphore) { return (semaphore - this.nameable) % 2 === 0; }

  awaited(semaphore) {
    if (semaphore <= this.nameable) return this.semaphore(semaphore);
    return `${this.isNotFull(semaphore) ? "room in" : "an entry of"} ${this.queue(this.queueOf(semaphore))}`;
  }

  // Of a task that the configuration's pairs start only after others: which, and whether they are idle.
  onlyAfter(task, state) {
    const firsts = this.pairs.filter(([, then]) => then === task).map(([first]) => first);
    const words = (first) => `${this.names.get(`t${first}`) || first}${state.blocks[first] & BLOCK.idle ? " (idle)" : ""}`;
    return [...new Set(firsts)].sort((one, other) => one - other).map(words).join(", ");
  }

  request([kind, named, ...entry]) {
    if (kind === 1) return `receive from ${named ? this.task(named) : "any task"}`;
    if (kind === 2) return `dequeue of ${this.queue(named)}`;
    if (kind === 3) return `enqueue of ${entry.length ? hexOf(entry) + " " : ""}into ${this.queue(named)}`;
    return "none";
  }

  outcome([kind, ...value]) {
    if (kind === 1) return "begin";
    if (kind === 2) return `${this.letter(value)} with ${this.semaphore(value[2])}`;
    if (kind === 3) return `entry ${hexOf(value)}`;
    if (kind === 4) return `refused ${value[0]}`;
    if (kind === 5) return this.semaphore(value[0]);
    if (kind === 6) return value[0] ? `woke ${this.task(value[0])}` : "woke nobody";
    return "plain";
  }

  event([kind, ...values]) {
    const [first, second, third, ended] = values;
    if (kind === EVENT.due) return `A timer of ${this.task(first)} is due and signals ${this.semaphore(second)}.`;
    if (kind === EVENT.dropped) return `${this.letter(values)} is dropped and signals ${this.semaphore(third)}.`;
    if (kind === EVENT.lost) return `${this.semaphore(first)} was DONE already: this signal is lost.`;
    if (kind === EVENT.woken && second) return `${this.semaphore(second)} wakes ${this.task(first)}.`;
    if (kind === EVENT.woken) return `The message wakes ${this.task(first)}.`;
    const end = ended === 0 ? "it completes" : ended === 1 ? "it waits again" : `it ends with outcome refused ${ended}`;
    return `The ${this.request([second, third])} of ${this.task(first)} is issued again: ${end}.`;
  }
}

// The tables of a state: by title, rows by key; each row is what it is about and its cells' texts.
function tablesOf(session, speech, state, frame) {
  const running = session.running(frame);
  const tables = { tasks: new Map(), semaphores: new Map(), mailboxes: new Map(), queues: new Map(), timers: new Map() };
  for (let task = 1; task < state.blocks.length; task++) {
    tables.tasks.set(`t${task}`, {
      runs: task === running,
      cells: [blocksWords(state.blocks[task], task === running), waitWords(speech, state, task),
        speech.request(state.requests[task]), speech.outcome(state.outcomes[task]), slotWords(state.slots[task])],
    });
  }
  for (let number = 1; number < state.semaphores.length; number++) {
    const value = state.semaphores[number];
    if (value) tables.semaphores.set(`s${number}`, { cells: [value === DONE ? "DONE" : `WAITING with ${speech.task(value)}`] });
  }
  state.mailboxes.forEach((letters, task) => {
    const words = (letter) => `${speech.letter(letter)} with ${speech.semaphore(letter[2])}`;
    if (letters.length) tables.mailboxes.set(`t${task}`, { cells: [letters.map(words).join("; ")] });
  });
  session.configuration.queues.forEach(([, depth], place) => {
    const entries = state.queues[place + 1];
    const cells = [`${entries.length} of ${depth}`, entries.map(hexOf).join(" ") || "none"];
    tables.queues.set(`q${place + 1}`, { bar: entries.length / depth, cells });
  });
  const longest = Math.max(1, ...state.timers.map((timer) => timer.due - state.tocks));
  for (const { task, semaphore, due, period } of state.timers) {
    const left = due - state.tocks;
    const again = period ? `every ${counted(period, "tock")}` : "once";
    tables.timers.set(`t${task} s${semaphore}`, { bar: left / longest, cells: [counted(left, "tock"), again] });
  }
  return tables;
}

function blocksWords(blocks, runs) {
  const names = ["idle", "suspended", "event wait", "message wait"].filter((_, bit) => blocks >> bit & 1);
  return names.join(", ") || (runs ? "running" : "ready");
}

function waitWords(speech, state, task) {
  if (state.blocks[task] & BLOCK.event) return speech.awaited(state.waitsOn(task));
  if (!(state.blocks[task] & BLOCK.message)) return "";
  const [kind, from] = state.requests[task];
  return kind === 1 && from ? `a message from ${speech.task(from)}` : "a message";
}

function slotWords(slot) {
  const digits = hexOf(slot).replace(/(00)+$/, "");
  return digits.length === 32 ? digits : `${digits}00\u2026`;
}

const TITLES = {
  tasks: ["Tasks", ["task", "state", "waits for", "since", "open request", "outcome", "slot"]],
  semaphores: ["Semaphores that are not PENDING", ["semaphore", "state"]],
  mailboxes: ["Mailboxes that are not empty", ["of", "messages"]],
  queues: ["Queues", ["queue", "fill", "", "entries, oldest first"]],
  timers: ["Timers", ["of, on", "left", "", "period"]],
};
const GONE = { semaphores: ["PENDING"], mailboxes: ["empty"], timers: ["gone", ""] };

class Tables {
  constructor(part, view) {
    this.view = view;
    this.speech = new Speech(view.session);
    this.box = part.querySelector(".tables");
  }

  of(frame) {
    const { session } = this.view;
    return tablesOf(session, this.speech, session.state(frame), frame);
  }

  // Other tables to hold these against, where two sessions are shown.
  draw(other) {
    const { session, frame } = this.view;
    const state = session.state(frame);
    const now = tablesOf(session, this.speech, state, frame);
    const before = frame > 0 ? this.of(frame - 1) : now;
    this.box.replaceChildren(...this.head(frame, state), ...this.trail(state));
    for (const name of Object.keys(TITLES)) this.table(name, now[name], before[name], other && other[name], state);
  }

  head(frame, state) {
    const { session } = this.view;
    const asked = element("p", "asked", `${frame}  ${session.askedWords(frame)}`);
    if (session.refusal(frame)) asked.classList.add("refused");
    const { ticks, milliseconds } = session.configuration;
    const seconds = grouped((state.tocks + state.ticks / ticks) * milliseconds / 1000);
    const when = `tock ${grouped(state.tocks)}, tick ${state.ticks} of ${ticks}, ${seconds} s`;
    const digits = element("p", "quiet", `frame ${grouped(frame)} of ${grouped(session.frames)}, ${when}: `);
    digits.append(element("span", "digits", `${session.askedDigits(frame)} \u2192 ${session.answerDigits(frame)}`));
    const answer = element("p", "answer", session.answerWords(frame));
    answer.prepend("\u2192 ");
    return [asked, answer, digits];
  }

  trail(state) {
    if (!state.events.length) return [];
    const list = element("ol", "trail");
    for (const event of state.events) {
      const words = this.speech.event(event);
      list.append(element("li", event[0] === EVENT.issued ? "issued" : "", words[0].toUpperCase() + words.slice(1)));
    }
    return [element("h2", "", "What it did on its way"), list];
  }

  table(name, now, before, other, state) {
    const [title, columns] = TITLES[name];
    const rows = [...now];
    if (GONE[name]) for (const key of before.keys()) if (!now.has(key)) rows.push([key, { gone: true, cells: GONE[name] }]);
    if (name !== "timers") rows.sort(([one], [other]) => Number(one.slice(1)) - Number(other.slice(1)));
    this.box.append(element("h2", "", title + (rows.length ? "" : ": none")));
    if (!rows.length) return;
    const table = element("table", name);
    const head = table.createTHead().insertRow();
    for (const column of columns) head.append(element("th", "", column));
    const body = table.createTBody();
    for (const [key, row] of rows) this.row(body.insertRow(), name, key, row, before.get(key), other, state);
    this.box.append(table);
  }

  row(line, name, key, row, before, other, state) {
    line.dataset.key = key;
    if (row.runs) line.className = "runs";
    if (row.gone) line.className = "gone";
    const first = line.insertCell();
    first.append(...this.subjects(key));
    const after = name === "tasks" ? this.speech.onlyAfter(Number(key.slice(1)), state) : "";
    if (after) first.append(element("span", "after", ` only after ${after}`));
    row.cells.forEach((text, place) => {
      const cell = line.insertCell();
      cell.textContent = text;
      if (name === "queues" && place === 1) cell.className = "entries";
      if (name === "tasks" && place === 4) cell.className = "digits";
      if (!before || before.cells[place] !== text) {
        cell.classList.add("changed");
        cell.title = before ? `before: ${before.cells[place]}` : "new";
      }
      const theirs = other && other.get(key);
      if (other && !row.gone && (theirs ? theirs.cells[place] : "") !== text) cell.classList.add("differs");
      if (row.bar !== undefined && place === 0) line.insertCell().append(bar(row.bar));
      if (name === "tasks" && place === 1) this.since(line.insertCell(), Number(key.slice(1)), state);
    });
  }

  subjects(key) {
    return key.split(" ").flatMap((part, place) => {
      const button = element("button", "follow", subjectWords(this.speech, part));
      button.dataset.follow = part;
      button.title = "Follow this: t and T go to frames that touch it";
      return place ? [", ", button] : [button];
    });
  }

  // Since which frame a task waits, and how long that is.
  since(cell, task, state) {
    cell.className = "since";
    if (!(state.blocks[task] & WAITS)) return;
    const { session, frame } = this.view;
    const [tocks, frames] = [state.tocks - session.tocks[state.since[task]], frame - state.since[task]];
    cell.title = `${counted(frames, "frame")}, ${counted(tocks, "tock")}`;
    cell.append(frameLink(state.since[task]), ` (${tocks ? counted(tocks, "tock") : counted(frames, "frame")})`);
  }
}

function subjectWords(speech, key) {
  const number = Number(key.slice(1));
  const name = speech.names.get(key);
  if (key[0] === "t") return name ? `${number} ${name}` : speech.task(number);
  if (key[0] === "q") return speech.queue(number);
  if (key[0] === "m") return speech.message(number);
  if (name) return `semaphore ${number} ${name}`;
  if (number > speech.nameable) return `semaphore ${number}, ${speech.semaphore(number)}`;
  return number > speech.named ? `semaphore ${number}, ${speech.task(number - speech.named)}'s own` : `semaphore ${number}`;
}

function bar(part) {
  const box = element("span", "bar");
  const fill = element("i");
  fill.style.width = `${Math.round(100 * part)}%`;
  box.append(fill);
  return box;
}

function frameLink(frame) {
  const link = element("a", "frame", `#${frame}`);
  link.href = `#f=${frame}`;
  return link;
}
