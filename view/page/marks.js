// What stands above the lanes, the arrows between them, the legend, and the overview of the whole session.

const OVERVIEW_HEIGHT = 44;
const MARK_ROW = 16;
const MARKS_HEIGHT = 5 * MARK_ROW + 6;
const ARROWS_FROM = 3; // pixels a frame
const CROWDED = 2; // pixels a frame; below it marks are counted

const ROWS = { scale: 0, clock: 1, interrupts: 2, refusals: 3, reissues: 4 };
const middleOf = (row) => 2 + row * MARK_ROW + MARK_ROW / 2;

function drawMarks(pen, paint, axis, session) {
  pen.font = '12px system-ui, "DejaVu Sans", sans-serif';
  const { found } = session;
  drawScale(pen, paint, axis, session);
  drawRow(pen, paint, axis, "ticks, tocks", ROWS.clock, paint.quiet, found.ticks, (x, y) => pen.fillRect(x - 0.5, y, 1, 5));
  drawRow(pen, paint, axis, "", ROWS.clock, paint.text, found.tocks, (x, y) => pen.fillRect(x - 1, y - 6, 2, 12));
  drawRow(pen, paint, axis, "interrupts", ROWS.interrupts, paint.interrupt, found.interrupts, (x, y) => triangle(pen, x, y));
  drawRow(pen, paint, axis, "refused", ROWS.refusals, paint.refused, found.refusals, (x, y) => cross(pen, x, y));
  drawRow(pen, paint, axis, "reissued", ROWS.reissues, paint.reissued, found.reissues, (x, y) => ring(pen, x, y));
  pen.strokeStyle = paint.line;
  pen.strokeRect(LEFT - 0.5, MARKS_HEIGHT - 2.5, axis.width, 0.01);
}

function drawScale(pen, paint, axis, session) {
  const byTocks = axis.window.kind === "tocks";
  const step = roundStep(90 / axis.scale);
  const y = middleOf(ROWS.scale);
  pen.fillStyle = paint.quiet;
  pen.fillText(byTocks ? "tock" : "frame", 8, y);
  for (let at = Math.ceil(axis.window.from / step) * step; at <= axis.window.to; at += step) {
    const x = LEFT + (at - axis.window.from) * axis.scale;
    pen.fillStyle = paint.line;
    pen.fillRect(x, y - 7, 1, 14);
    pen.fillStyle = paint.quiet;
    pen.fillText(grouped(at), x + 4, y);
  }
}

// A mark for each frame of a list; where they lie too close, how many there are.
function drawRow(pen, paint, axis, name, row, colour, frames, mark) {
  const y = middleOf(row);
  pen.fillStyle = paint.quiet;
  pen.fillText(name, 8, y);
  pen.fillStyle = pen.strokeStyle = colour;
  const [first, last] = axis.seen();
  const [from, to] = [after(frames, first - 1), after(frames, last - 1)];
  const middle = (frame) => (axis.x(frame) + axis.x(frame + 1)) / 2;
  if ((axis.width - LEFT) / (last - first) < CROWDED) return drawCounts(pen, axis, y, frames.slice(from, to), middle);
  for (let place = from; place < to; place++) if (middle(frames[place]) >= LEFT) mark(middle(frames[place]), y);
}

// A bar for each pixel, as high as it has marks beside the pixel that has most.
function drawCounts(pen, axis, y, frames, middle) {
  const counts = new Uint32Array(Math.ceil(axis.width) + 1);
  let most = 1;
  for (const frame of frames) {
    const x = Math.floor(middle(frame));
    if (x >= LEFT && ++counts[x] > most) most = counts[x];
  }
  const full = MARK_ROW - 3;
  counts.forEach((count, x) => {
    const height = Math.max(2, full * count / most);
    if (count) pen.fillRect(x, y + full / 2 - height, 1, height);
  });
}

function triangle(pen, x, y) {
  pen.beginPath();
  pen.moveTo(x - 4, y - 4);
  pen.lineTo(x + 4, y - 4);
  pen.lineTo(x, y + 4);
  pen.fill();
}

function cross(pen, x, y) {
  pen.lineWidth = 2;
  pen.beginPath();
  pen.moveTo(x - 4, y - 4);
  pen.lineTo(x + 4, y + 4);
  pen.moveTo(x + 4, y - 4);
  pen.lineTo(x - 4, y + 4);
  pen.stroke();
  pen.lineWidth = 1;
}

function ring(pen, x, y) {
  pen.lineWidth = 2;
  pen.beginPath();
  pen.arc(x, y, 4, 0, 7);
  pen.stroke();
  pen.lineWidth = 1;
}

// From who signalled or sent to whom it woke; only where frames are wide enough.
function drawArrows(pen, paint, lanes) {
  const { axis, session } = lanes.view;
  const { frame, from, to } = session.woken;
  const [first, last] = axis.seen();
  if (axis.x(first + 1) - axis.x(first) < ARROWS_FROM && (axis.width - LEFT) / (last - first) < ARROWS_FROM) return;
  pen.strokeStyle = pen.fillStyle = paint.text;
  for (let place = after(frame, first - 1); place < frame.length && frame[place] < last; place++) {
    const x = (axis.x(frame[place]) + axis.x(frame[place] + 1)) / 2;
    if (x < LEFT) continue;
    const start = from[place] > 0 ? Math.max(MARKS_HEIGHT, lanes.topOf(from[place]) + LANE_HEIGHT / 2)
      : middleOf(from[place] === -0x11 ? ROWS.interrupts : ROWS.clock) + 5;
    if (lanes.topOf(to[place]) >= MARKS_HEIGHT) arrow(pen, x, start, lanes.topOf(to[place]), from[place] > 0);
  }
}

function arrow(pen, x, start, top, dot) {
  const down = top > start;
  const end = down ? top + 3 : top + LANE_HEIGHT - 3;
  const back = down ? end - 6 : end + 6;
  pen.beginPath();
  pen.moveTo(x, start);
  pen.lineTo(x, back);
  pen.stroke();
  pen.beginPath();
  if (dot) pen.arc(x, start, 2.5, 0, 7);
  pen.moveTo(x - 4, back);
  pen.lineTo(x + 4, back);
  pen.lineTo(x, end);
  pen.fill();
}

function drawLegend(part, paint) {
  const legend = part.querySelector(".legend");
  legend.replaceChildren(...LANE_NAMES.map((name, lane) => {
    const item = element("span");
    const sample = element("canvas");
    item.append(sample, name);
    const pen = drawOn(sample, 22, 12);
    pen.fillStyle = paint.filled[lane];
    pen.fillRect(0, 0, 22, 12);
    return item;
  }), element("span", "", "\u2193 wakes"));
}

// The whole session: how much of each pixel's frames a task ran, refusals above, and the window.
class Overview {
  constructor(part, view) {
    this.view = view;
    this.canvas = part.querySelector(".overview");
    this.still = document.createElement("canvas");
    this.listen();
  }

  // Pixels a unit of the axis.
  get scale() {
    return this.canvas.clientWidth / this.view.axis.end;
  }

  // The part that does not change with the window.
  paintStill(paint) {
    const { axis, session } = this.view;
    const [width, height] = [this.canvas.clientWidth, OVERVIEW_HEIGHT];
    const key = [width, height, axis.window.kind, paint.text].join();
    if (key === this.key) return;
    this.key = key;
    const pen = drawOn(this.still, width, height);
    const whole = new Axis(session, { from: 0, to: axis.end, kind: axis.window.kind });
    whole.x = (frame) => LEFT + whole.position(frame) * width / axis.end;
    whole.tockPlaces = axis.tockPlaces;
    whole.width = width + LEFT;
    pen.save();
    pen.translate(-LEFT, 0);
    const busy = new Steps();
    const lane = session.lanes[0];
    lane.from.forEach((from, place) => busy.add(from, lane.value[place] === LANE.running ? LANE.none : LANE.running));
    if (busy.from[0] !== 0) busy.from.unshift(0), busy.value.unshift(LANE.running);
    paintSteps(new Strip(pen, paint, 14, height - 16), busy, whole);
    this.marks(pen, whole, session.found.refusals, paint.refused, 1);
    this.marks(pen, whole, session.found.reissues, paint.reissued, 7);
    pen.restore();
  }

  // At most one a pixel.
  marks(pen, whole, frames, colour, top) {
    pen.fillStyle = colour;
    let before = -1;
    for (const frame of frames) {
      const x = Math.floor(whole.x(frame));
      if (x !== before) pen.fillRect(x, top, 1.5, 5);
      before = x;
    }
  }

  draw(paint) {
    this.paintStill(paint);
    const { axis, frame } = this.view;
    const [width, height] = [this.canvas.clientWidth, OVERVIEW_HEIGHT];
    const pen = drawOn(this.canvas, width, height);
    pen.drawImage(this.still, 0, 0, width, height);
    const [from, to] = [axis.window.from * this.scale, axis.window.to * this.scale];
    pen.fillStyle = "rgba(128, 128, 128, 0.35)";
    pen.fillRect(0, 0, from, height);
    pen.fillRect(to, 0, width - to, height);
    pen.strokeStyle = paint.text;
    pen.lineWidth = 2;
    pen.strokeRect(from + 1, 1, Math.max(4, to - from - 2), height - 2);
    pen.lineWidth = 1;
    pen.fillStyle = paint.chosenedge;
    pen.fillRect(axis.position(frame) * this.scale - 1, 0, 2, height);
    this.view.stretch?.drawInOverview(pen, paint, this.scale);
  }

  // Dragging moves the window, its edges make it wider or narrower, a click elsewhere brings it there.
  listen() {
    const { canvas, view } = this;
    let held = null;
    const units = (event) => (event.clientX - canvas.getBoundingClientRect().left) / this.scale;
    canvas.addEventListener("pointerdown", (event) => {
      const { from, to } = view.axis.window;
      const [at, near] = [units(event), 6 / this.scale];
      const size = to - from;
      if (Math.abs(at - from) < near) held = (now) => view.axis.show(Math.min(now, to), to);
      else if (Math.abs(at - to) < near) held = (now) => view.axis.show(from, Math.max(now, from));
      else {
        const inside = at > from && at < to ? at - from : size / 2;
        held = (now) => view.axis.show(now - inside, now - inside + size);
      }
      canvas.setPointerCapture(event.pointerId);
      held(at);
      view.moved();
    });
    canvas.addEventListener("pointermove", (event) => { if (held) held(units(event)), view.moved(); });
    canvas.addEventListener("pointerup", () => { held = null; });
  }
}
