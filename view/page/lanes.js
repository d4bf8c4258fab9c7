// The lanes: for each task what it does after each frame.

const LANE_HEIGHT = 20;
const LANE_GAP = 4;

// The colours of the page, and for wide stretches the patterns that tell states apart in print.
class Paint {
  constructor() {
    const style = getComputedStyle(document.documentElement);
    this.of = (name) => style.getPropertyValue(`--${name}`).trim();
    this.plain = LANE_COLOURS.map((name) => this.of(name));
    this.filled = this.plain.map((colour, lane) => this.pattern(colour, lane));
    for (const name of ["text", "quiet", "line", "grid", "panel", "refused", "reissued", "interrupt", "chosen-edge", "accent"]) {
      this[name.replace("-", "")] = this.of(name);
    }
  }

  pattern(colour, lane) {
    if (![LANE.event, LANE.message, LANE.suspended].includes(lane)) return colour;
    const tile = document.createElement("canvas");
    tile.width = tile.height = 8;
    const pen = tile.getContext("2d");
    pen.fillStyle = colour;
    pen.fillRect(0, 0, 8, 8);
    pen.strokeStyle = pen.fillStyle = lane === LANE.suspended ? "rgba(255, 255, 255, 0.5)" : "rgba(0, 0, 0, 0.38)";
    pen.beginPath();
    if (lane === LANE.event) for (const at of [-4, 4, 12]) pen.moveTo(at - 5, 9), pen.lineTo(at + 5, -1);
    if (lane === LANE.suspended) pen.moveTo(2.5, 0), pen.lineTo(2.5, 8);
    pen.stroke();
    if (lane === LANE.message) pen.fillRect(1, 1, 2, 2), pen.fillRect(5, 5, 2, 2);
    return pen.createPattern(tile, "repeat");
  }
}

// Paints steps of states into a strip: a whole pixel in its state's fill, a pixel of several in their shares.
class Strip {
  constructor(pen, paint, top, height) {
    Object.assign(this, { pen, paint, top, height });
    this.column = -1;
    this.shares = new Float64Array(LANE_COLOURS.length);
  }

  add(from, to, lane) {
    const first = Math.floor(from);
    if (from > first || to < first + 1) {
      const end = Math.min(to, first + 1);
      this.share(first, end - from, lane);
      if (end < to) this.add(end, to, lane);
      return;
    }
    this.flush();
    const last = Math.floor(to);
    if (lane !== LANE.none) {
      this.pen.fillStyle = last - first > 2 ? this.paint.filled[lane] : this.paint.plain[lane];
      this.pen.fillRect(first, this.top, last - first, this.height);
    }
    if (to > last) this.share(last, to - last, lane);
  }

  share(column, part, lane) {
    if (column !== this.column) this.flush();
    this.column = column;
    this.shares[lane] += part;
  }

  flush() {
    if (this.column < 0) return;
    let top = this.top;
    const sum = this.shares.reduce((all, share) => all + share, 0);
    for (let lane = 0; lane < this.shares.length; lane++) {
      if (this.shares[lane] === 0) continue;
      const height = this.height * this.shares[lane] / sum;
      if (lane !== LANE.none) {
        this.pen.fillStyle = this.paint.plain[lane];
        this.pen.fillRect(this.column, top, 1, height);
      }
      top += height;
    }
    this.shares.fill(0);
    this.column = -1;
  }
}

// Stretches that are wide enough end at whole pixels.
function paintSteps(strip, steps, axis) {
  const [first, last] = axis.seen();
  let from = LEFT;
  for (let place = steps.place(first); place < steps.from.length && steps.from[place] < last; place++) {
    const end = place + 1 < steps.from.length ? Math.min(steps.from[place + 1], last) : last;
    const exact = Math.min(axis.width, axis.x(end));
    const to = exact - from > 3 ? Math.round(exact) : exact;
    if (to > from) strip.add(from, to, steps.value[place]), from = to;
  }
  strip.flush();
}

class Lanes {
  constructor(part, view) {
    this.view = view;
    this.scroll = part.querySelector(".lanes-scroll");
    this.room = part.querySelector(".lanes-room");
    this.canvas = part.querySelector(".lanes");
    this.scroll.addEventListener("scroll", () => view.draw());
    this.listen();
  }

  // The null task's lane is the last.
  get order() {
    const tasks = this.view.session.configuration.tasks;
    return Array.from({ length: tasks + 1 }, (_, place) => (place + 1) % (tasks + 1));
  }

  laneTop(place) {
    return MARKS_HEIGHT + place * (LANE_HEIGHT + LANE_GAP) - this.scroll.scrollTop;
  }

  topOf(task) {
    const tasks = this.view.session.configuration.tasks;
    return this.laneTop(task === 0 ? tasks : task - 1);
  }

  draw(paint) {
    const { axis, session, frame, subject } = this.view;
    const height = this.scroll.clientHeight;
    this.room.style.height = `${MARKS_HEIGHT + this.order.length * (LANE_HEIGHT + LANE_GAP) + 4}px`;
    axis.width = this.scroll.clientWidth;
    const pen = drawOn(this.canvas, axis.width, height);
    this.order.forEach((task, place) => {
      const top = this.laneTop(place);
      if (top > height || top + LANE_HEIGHT < MARKS_HEIGHT - LANE_HEIGHT) return;
      paintSteps(new Strip(pen, paint, top, LANE_HEIGHT), session.lanes[task], axis);
      this.name(pen, paint, task, top, subject === `t${task}`);
    });
    pen.fillStyle = paint.panel;
    pen.fillRect(0, 0, axis.width, MARKS_HEIGHT - 2);
    drawMarks(pen, paint, axis, session);
    drawArrows(pen, paint, this);
    this.firstDifference(pen, paint, height);
    this.cursor(pen, paint, frame, height);
    this.view.stretch?.drawInLanes(pen, paint, height);
  }

  // Of two sessions: a dashed line where they part.
  firstDifference(pen, paint, height) {
    const { axis, app } = this.view;
    if (app.parts === undefined || app.parts >= axis.session.count) return;
    const x = Math.round(axis.x(app.parts)) + 0.5;
    if (x < LEFT || x > axis.width) return;
    pen.strokeStyle = paint.refused;
    pen.setLineDash([6, 4]);
    pen.beginPath();
    pen.moveTo(x, 0);
    pen.lineTo(x, height);
    pen.stroke();
    pen.setLineDash([]);
  }

  name(pen, paint, task, top, chosen) {
    const { session } = this.view;
    const name = session.names.get(`t${task}`);
    const text = task === 0 ? "null task" : name ? `${task} ${name}` : `task ${task}`;
    pen.fillStyle = chosen ? paint.accent : paint.text;
    pen.font = `${chosen ? "bold " : ""}12px system-ui, "DejaVu Sans", sans-serif`;
    pen.fillText(fitted(pen, text, LEFT - 16), 8, top + LANE_HEIGHT / 2);
  }

  cursor(pen, paint, frame, height) {
    const { axis } = this.view;
    const from = axis.x(frame);
    const width = Math.max(2, axis.x(frame + 1) - from);
    if (from + width < LEFT || from > axis.width) return;
    pen.strokeStyle = paint.chosenedge;
    pen.lineWidth = 2;
    pen.strokeRect(Math.max(LEFT, from), 1, width, height - 2);
    pen.lineWidth = 1;
  }

  listen() {
    const { scroll, view } = this;
    const x = (event) => event.clientX - scroll.getBoundingClientRect().left;
    scroll.addEventListener("wheel", (event) => {
      if (event.ctrlKey) return;
      event.preventDefault();
      const across = event.deltaX || (event.shiftKey ? event.deltaY : 0);
      if (across) view.axis.move(across / view.axis.scale);
      else view.axis.zoom(event.deltaY > 0 ? 1.25 : 0.8, Math.max(LEFT, x(event)));
      view.moved();
    }, { passive: false });
    let held = null;
    scroll.addEventListener("pointerdown", (event) => {
      if (event.clientX - scroll.getBoundingClientRect().left > scroll.clientWidth) return;
      held = { x: x(event), moved: false };
      this.canvas.setPointerCapture(event.pointerId);
    });
    scroll.addEventListener("pointermove", (event) => {
      if (!held) return;
      const by = held.x - x(event);
      if (!held.moved && Math.abs(by) < 4) return;
      held = { x: x(event), moved: true };
      view.axis.move(by / view.axis.scale);
      view.moved();
    });
    scroll.addEventListener("pointerup", (event) => {
      const click = held && !held.moved;
      held = null;
      if (click) this.click(x(event), event.clientY - scroll.getBoundingClientRect().top);
    });
  }

  click(x, y) {
    const place = Math.floor((y - this.laneTop(0)) / (LANE_HEIGHT + LANE_GAP));
    const task = y > MARKS_HEIGHT ? this.order[place] : undefined;
    if (x < LEFT && task !== undefined) this.view.follow(`t${task}`);
    if (x >= LEFT) this.view.choose(this.view.axis.frameAt(x), { still: true });
  }

  revealLane(task) {
    const top = this.topOf(task);
    if (top < MARKS_HEIGHT) this.scroll.scrollTop += top - MARKS_HEIGHT;
    const over = top + LANE_HEIGHT - this.scroll.clientHeight;
    if (over > 0) this.scroll.scrollTop += over;
  }
}

function fitted(pen, text, width) {
  if (pen.measureText(text).width <= width) return text;
  let end = text.length;
  while (end > 1 && pen.measureText(text.slice(0, end) + "\u2026").width > width) end--;
  return text.slice(0, end) + "\u2026";
}
