// The page: its views, what is chosen, keys and the link to a frame.

const NEAR = 100; // frames on either side of one that a link leads to

// One session's lanes, list, tables and plots.
class View {
  constructor(app, session, part) {
    Object.assign(this, { app, session, part });
    this.axis = new Axis(session, app.window);
    this.stretch = session.busiest && new Stretch(part, this);
    this.overview = new Overview(part, this);
    this.lanes = new Lanes(part, this);
    this.list = new List(part, this);
    this.plots = new Plots(part, this);
    this.tables = new Tables(part, this);
    this.summary = new Summary(part, this);
    part.classList.toggle("few", session.configuration.tasks < 6 && !part.closest(".two"));
    for (const tab of part.querySelectorAll("[role=tab]")) tab.addEventListener("click", () => app.tab(tab.dataset.tab));
    part.addEventListener("click", (event) => {
      const follow = event.target.closest("[data-follow]");
      if (follow) app.follow(follow.dataset.follow);
    });
    const resized = new ResizeObserver(() => { this.list.reveal(this.frame); this.draw(); });
    for (const panel of part.querySelectorAll(".lanes-scroll, .list, .plots-scroll")) resized.observe(panel);
  }

  get frame() { return Math.min(this.app.frame, this.session.count - 1); }
  get subject() { return this.app.subject; }
  choose(frame, how) { this.app.choose(frame, how); }
  follow(key) { this.app.follow(key); }
  moved() { this.app.draw(); }
  draw() { this.app.draw(); }
  matches(frame) { return this.app.search.matches(this.session, frame); }

  // Whether the other session has other words at a frame.
  differs(frame) {
    const other = this.app.views.find((view) => view !== this);
    if (!other) return false;
    const theirs = other.session;
    return frame >= theirs.count || theirs.askedDigits(frame) !== this.session.askedDigits(frame)
      || theirs.answerDigits(frame) !== this.session.answerDigits(frame);
  }

  paint(paint) {
    this.lanes.draw(paint);
    this.overview.draw(paint);
    this.plots.draw(paint);
    this.list.draw();
  }

  showTables() {
    const other = this.app.views.find((view) => view !== this);
    this.tables.draw(other && other.tables.of(other.frame));
  }
}

class App {
  constructor(sessions, about) {
    this.sessions = sessions;
    this.window = new Window();
    this.frame = 0;
    this.subject = "";
    this.drawn = { count: 0, longest: 0, last: 0 };
    const main = document.getElementById("sessions");
    main.classList.toggle("two", sessions.length > 1);
    main.replaceChildren();
    this.views = [];
    for (const session of sessions) {
      const part = document.getElementById("session").content.firstElementChild.cloneNode(true);
      main.append(part);
      this.views.push(new View(this, session, part));
    }
    this.search = new Search(this);
    this.head(sessions, about);
    this.buttons();
    this.repaint();
    this.whole();
    addEventListener("hashchange", () => this.fromLink());
    addEventListener("keydown", (event) => this.key(event));
    addEventListener("beforeprint", () => this.print(true));
    addEventListener("afterprint", () => this.print(false));
    if (this.fromLink()) this.near();
    else this.choose(0, { still: true });
  }

  // A long session that is opened at a frame shows what lies around it.
  near() {
    const { axis, session } = this.main;
    const [from, to] = [Math.max(0, this.frame - NEAR), Math.min(session.count, this.frame + NEAR)];
    if (session.count > 4 * NEAR) axis.show(axis.position(from), axis.position(to));
  }

  // The session with the most frames says how far the axis goes.
  get main() {
    return this.views.reduce((most, view) => view.session.count > most.session.count ? view : most);
  }

  head(sessions, about) {
    const lines = sessions.map(({ on, frames, tocks, found: { refusals, reissues } }) => {
      const marks = `${grouped(refusals.length)} refused, ${grouped(reissues.length)} with reissues`;
      return `${counted(frames, "frame")}, ${counted(tocks[frames], "tock")}, ${marks}${on}`;
    });
    document.getElementById("about").textContent = lines.join(" | ");
    if (sessions.length < 2) return;
    const box = document.getElementById("differences");
    box.hidden = false;
    const told = { frame: "First frame that differs", answer: "First answer that differs", item: "First item that differs" };
    if (about.differences.length) this.parts = Math.min(...about.differences.map(({ frame }) => frame));
    for (const { what, frame, how } of about.differences) {
      const line = element("p", "", `${told[what]}: `);
      line.dataset.what = what;
      line.append(frameLink(frame), ` ${how}`);
      box.append(line);
    }
    if (!about.differences.length) box.append(element("p", "", "The two sessions are the same, frame by frame."));
  }

  buttons() {
    const on = (id, act) => document.getElementById(id).addEventListener("click", act);
    on("axis", () => this.axisKind());
    on("whole", () => this.whole());
    on("theme", () => this.theme());
    on("help-button", () => document.getElementById("help").showModal());
    for (const group of document.querySelectorAll("[data-next]")) {
      for (const button of group.querySelectorAll("button")) {
        button.addEventListener("click", () => this.next(group.dataset.next, Number(button.dataset.way)));
      }
    }
    const wanted = matchMedia("(prefers-color-scheme: dark)").matches;
    document.documentElement.classList.toggle("dark", wanted);
  }

  // Draws once in the next picture, however often it is asked for.
  draw() {
    if (this.asked) return;
    this.asked = requestAnimationFrame(() => this.paintNow());
  }

  paintNow() {
    this.asked = 0;
    const began = performance.now();
    for (const view of this.views) view.paint(this.paint);
    const took = performance.now() - began;
    this.drawn = { count: this.drawn.count + 1, longest: Math.max(this.drawn.longest, took), last: took };
  }

  // With the colours of the theme.
  repaint() {
    const dark = document.documentElement.classList.contains("dark");
    document.getElementById("theme").textContent = dark ? "light" : "dark";
    this.paint = new Paint();
    for (const view of this.views) drawLegend(view.part, this.paint);
    this.draw();
  }

  theme() {
    document.documentElement.classList.toggle("dark");
    this.repaint();
  }

  print(begins) {
    if (begins) this.wasDark = document.documentElement.classList.contains("dark");
    document.documentElement.classList.toggle("dark", !begins && this.wasDark);
    this.repaint();
    this.paintNow();
  }

  choose(frame, { still = false } = {}) {
    this.frame = clamp(frame, 0, this.main.session.count - 1);
    if (!still) this.main.axis.reveal(this.frame);
    for (const view of this.views) {
      view.list.reveal(view.frame);
      view.showTables();
    }
    history.replaceState(null, "", `#f=${this.frame}`);
    this.draw();
  }

  fromLink() {
    const found = /^#f=(\d+)$/.exec(location.hash);
    if (found) this.choose(Number(found[1]));
    return found !== null;
  }

  // What `t` goes to: t, s, q or m and a number.
  follow(key) {
    this.subject = key;
    const view = this.views[0];
    document.getElementById("subject").textContent = subjectWords(view.tables.speech, key);
    if (key[0] === "t") view.lanes.revealLane(Number(key.slice(1)));
    this.draw();
  }

  followTask(way) {
    const tasks = this.views[0].session.configuration.tasks;
    const now = this.subject[0] === "t" ? Number(this.subject.slice(1)) : way > 0 ? 0 : tasks + 1;
    this.follow(`t${clamp(now + way, 1, tasks)}`);
  }

  next(kind, way) {
    if (kind === "touch" && !this.subject) this.follow(`t${this.main.session.running(this.frame) || 1}`);
    const testOf = {
      refusal: (session) => (frame) => session.refusal(frame) > 0,
      reissue: (session) => (frame) => session.reissues(frame) > 0,
      touch: (session) => session.toucher(this.subject),
    }[kind];
    this.goNext(way, inAny(this.sessions, testOf), `no more: ${kind}`);
  }

  goNext(way, test, none) {
    const frame = nextFrame(this.main.session.count, this.frame, way, test);
    if (frame >= 0) this.choose(frame);
    else this.search.say(none);
  }

  whole() {
    this.main.axis.show(0, this.main.axis.end);
    this.draw();
  }

  axisKind() {
    const { axis } = this.main;
    const [from, to] = [axis.frameOf(axis.window.from), axis.frameOf(axis.window.to)];
    this.window.kind = this.window.kind === "frames" ? "tocks" : "frames";
    document.getElementById("axis").textContent = this.window.kind;
    axis.show(axis.position(from), axis.position(Math.min(axis.session.count, to + 1)));
    this.draw();
  }

  tab(name) {
    for (const { part } of this.views) {
      for (const tab of part.querySelectorAll("[role=tab]")) tab.setAttribute("aria-selected", tab.dataset.tab === name);
      for (const panel of part.querySelectorAll("[data-for]")) panel.hidden = panel.dataset.for !== name;
    }
    this.draw();
  }

  otherTab() {
    const now = this.views[0].part.querySelector("[aria-selected=true][role=tab]").dataset.tab;
    this.tab(now === "plots" ? "summary" : "plots");
  }

  zoom(factor) {
    const { axis } = this.main;
    const x = axis.x(this.frame);
    axis.zoom(factor, x >= LEFT && x <= axis.width ? x : (LEFT + axis.width) / 2);
    this.draw();
  }

  screen(way) {
    const { axis } = this.main;
    const size = axis.window.to - axis.window.from;
    const from = axis.frameOf(axis.position(this.frame) + way * size);
    axis.move(way * size);
    this.choose(from === this.frame ? from + way : from);
  }

  key(event) {
    const typing = event.target.closest("input, dialog");
    if (typing || event.ctrlKey || event.metaKey || event.altKey) return;
    const inList = event.target.closest(".list") !== null;
    const step = event.shiftKey ? 10 : 1;
    const acts = {
      ArrowRight: () => this.choose(this.frame + step),
      ArrowLeft: () => this.choose(this.frame - step),
      ArrowDown: () => inList ? this.choose(this.frame + 1) : this.followTask(1),
      ArrowUp: () => inList ? this.choose(this.frame - 1) : this.followTask(-1),
      PageDown: () => this.screen(1),
      PageUp: () => this.screen(-1),
      Home: () => this.choose(0),
      End: () => this.choose(this.main.session.count - 1),
      "+": () => this.zoom(0.5),
      "=": () => this.zoom(0.5),
      "-": () => this.zoom(2),
      0: () => this.whole(),
      r: () => this.next("refusal", 1),
      R: () => this.next("refusal", -1),
      i: () => this.next("reissue", 1),
      I: () => this.next("reissue", -1),
      t: () => this.next("touch", 1),
      T: () => this.next("touch", -1),
      "/": () => this.search.input.focus(),
      n: () => this.search.next(1),
      N: () => this.search.next(-1),
      a: () => this.axisKind(),
      d: () => this.theme(),
      p: () => this.otherTab(),
      "?": () => document.getElementById("help").showModal(),
    };
    const scrolls = event.target.closest(".tables-panel, .summary") && /^(Arrow(Up|Down)|Page)/.test(event.key);
    if (!acts[event.key] || scrolls) return;
    event.preventDefault();
    acts[event.key]();
  }
}

async function begin() {
  const about = JSON.parse(document.getElementById("page-about").textContent);
  const texts = [...document.querySelectorAll("script.packed")].map((script) => script.textContent);
  const began = performance.now();
  const sessions = await Promise.all(texts.map((text) => Session.read(text)));
  window.page = new App(sessions, about);
  window.page.loaded = performance.now() - began;
  document.documentElement.dataset.ready = "yes";
}

begin().catch((error) => {
  document.getElementById("sessions").textContent = `This page cannot be shown: ${error.message}`;
  throw error;
});
