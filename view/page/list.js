// The list of frames in words. Only the rows that are seen exist; a million rows need no more.

const ROW = 22;
const TALLEST = 4_000_000; // pixels; browsers have a limit

class List {
  constructor(part, view) {
    this.view = view;
    this.box = part.querySelector(".list");
    this.room = part.querySelector(".list-room");
    this.rows = part.querySelector(".list-rows");
    this.top = 0;
    this.box.addEventListener("scroll", () => this.scrolled());
    this.box.addEventListener("wheel", (event) => this.wheel(event), { passive: false });
    this.rows.addEventListener("click", (event) => {
      const row = event.target.closest(".row");
      if (row) view.choose(Number(row.dataset.frame));
    });
  }

  get seen() {
    return Math.max(1, Math.floor(this.box.clientHeight / ROW));
  }

  get last() {
    return Math.max(0, this.view.session.count - this.seen);
  }

  get height() {
    return Math.min(TALLEST, this.view.session.count * ROW);
  }

  scrolled() {
    const most = this.height - this.box.clientHeight;
    const top = most > 0 ? this.box.scrollTop / most * this.last : 0;
    if (Math.abs(this.place(this.top) - this.box.scrollTop) > 1) this.top = top;
    this.draw();
  }

  place(top) {
    return this.last > 0 ? top / this.last * (this.height - this.box.clientHeight) : 0;
  }

  wheel(event) {
    if (event.ctrlKey) return;
    event.preventDefault();
    this.go(this.top + (event.deltaMode === 1 ? event.deltaY : event.deltaY / ROW));
  }

  go(top) {
    this.top = clamp(top, 0, this.last);
    this.box.scrollTop = this.place(this.top);
    this.draw();
  }

  reveal(frame) {
    this.room.style.height = `${this.height}px`;
    if (frame < this.top + 1 || frame > this.top + this.seen - 2) this.go(frame - this.seen / 2);
    else this.draw();
  }

  draw() {
    const { session, frame: chosen } = this.view;
    this.room.style.height = `${this.height}px`;
    const first = Math.round(clamp(this.top, 0, this.last));
    const rows = [];
    for (let frame = first; frame < Math.min(session.count, first + this.seen + 1); frame++) rows.push(this.row(frame, chosen));
    this.rows.replaceChildren(...rows);
  }

  row(frame, chosen) {
    const { session } = this.view;
    const row = element("div", "row");
    row.dataset.frame = frame;
    row.setAttribute("role", "option");
    row.setAttribute("aria-selected", frame === chosen);
    if (frame === chosen) row.classList.add("chosen");
    if (session.refusal(frame)) row.classList.add("refused");
    if (frame > 0 && session.tocks[frame] !== session.tocks[frame - 1]) row.classList.add("tock");
    if (this.view.matches(frame)) row.classList.add("match");
    if (this.view.differs(frame)) row.classList.add("differs");
    if (this.view.stretch?.has(frame)) row.classList.add("in-stretch");
    const mark = session.refusal(frame) ? "\u2715" : session.reissues(frame) ? "\u25CB" : "";
    const text = element("span");
    text.append(element("span", "ask", session.askedWords(frame) + ": "), element("span", "say", session.answerWords(frame)));
    text.title = `${session.askedWords(frame)}: ${session.answerWords(frame)}`;
    row.append(element("span", "n", frame), element("span", "mark", mark), text);
    return row;
  }
}

function element(tag, name = "", text = "") {
  const made = document.createElement(tag);
  if (name) made.className = name;
  if (text !== "") made.textContent = text;
  return made;
}
