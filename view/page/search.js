// Search by words, by a task, semaphore, queue or message, by a refusal's number; and the next frame of a kind.

// A test of frames for what was typed, or null.
function matcherOf(session, typed) {
  const text = typed.trim().toLowerCase();
  if (!text) return null;
  const key = keyOf(text);
  if (key) return session.toucher(key);
  if (/^\d+$/.test(text) && session.refusals.includes(Number(text))) return (frame) => session.refusal(frame) === Number(text);
  const asked = Uint8Array.from(session.asked, ([digits, , , words]) => holds(digits, words, text));
  const answered = Uint8Array.from(session.answered, ([digits, words]) => holds(digits, words, text));
  const whole = (frame) => `${session.askedWords(frame)}: ${session.answerWords(frame)}`.toLowerCase();
  const across = text.includes(":") ? (frame) => whole(frame).includes(text) : () => false;
  return (frame) => asked[session.ask[frame]] === 1 || answered[session.answer[frame]] === 1 || across(frame);
}

const holds = (digits, words, text) => words.toLowerCase().includes(text) || digits.toLowerCase() === text ? 1 : 0;

// t1 or task 1, s4 or semaphore 4, q2 or queue 2, m1 or message 1.
function keyOf(text) {
  const found = /^(t|s|q|m|task|semaphore|queue|message) ?(\d+)$/.exec(text);
  return found && found[1][0] + Number(found[2]);
}

// The next frame in a direction that passes a test, or -1.
function nextFrame(count, from, way, test) {
  for (let frame = from + way; frame >= 0 && frame < count; frame += way) if (test(frame)) return frame;
  return -1;
}

// A test that holds where it holds for one of the sessions.
function inAny(sessions, testOf) {
  const tests = sessions.map(testOf);
  return (frame) => sessions.some((session, place) => frame < session.count && tests[place](frame));
}

class Search {
  constructor(app) {
    this.app = app;
    this.input = document.getElementById("search");
    this.found = document.getElementById("found");
    this.matchers = new Map(); // by session
    this.input.addEventListener("input", () => this.typed());
    this.input.addEventListener("keydown", (event) => {
      if (event.key === "Enter") this.next(event.shiftKey ? -1 : 1);
      if (event.key === "Escape") event.preventDefault(), this.input.blur(); // or the browser empties it
    });
    document.getElementById("find").addEventListener("click", () => this.next(1));
    document.getElementById("find-back").addEventListener("click", () => this.next(-1));
  }

  typed() {
    clearTimeout(this.later);
    this.later = setTimeout(() => this.look(), 150);
  }

  // #1500 goes there; else the matches are counted and marked.
  look() {
    clearTimeout(this.later);
    this.looked = this.input.value;
    const frame = /^#(\d+)$/.exec(this.looked.trim());
    this.matchers.clear();
    for (const session of this.app.sessions) {
      const matcher = frame ? null : matcherOf(session, this.looked);
      if (matcher) this.matchers.set(session, matcher);
    }
    if (frame) this.app.choose(Number(frame[1]));
    this.found.textContent = this.matchers.size ? counted(this.count(), "frame") : "";
    this.app.draw();
  }

  count() {
    let count = 0;
    const test = this.test();
    for (let frame = 0; frame < this.app.main.session.count; frame++) if (test(frame)) count++;
    return count;
  }

  test() {
    return inAny(this.app.sessions, (session) => this.matchers.get(session));
  }

  matches(session, frame) {
    const matcher = this.matchers.get(session);
    return matcher !== undefined && matcher(frame);
  }

  next(way) {
    if (this.looked !== this.input.value) this.look();
    if (this.matchers.size) this.app.goNext(way, this.test(), "no more matches");
  }

  say(text) {
    this.found.textContent = text;
  }
}
