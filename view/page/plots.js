// Plots over the same stretch as the lanes: fill of each queue, messages lying, timers, reissues a frame.

const PLOT_HEIGHT = 46;
const PLOT_GAP = 10;

class Plots {
  constructor(part, view) {
    this.view = view;
    this.scroll = part.querySelector(".plots-scroll");
    this.canvas = part.querySelector(".plots");
    this.scroll.addEventListener("click", (event) => {
      const x = event.clientX - this.scroll.getBoundingClientRect().left;
      if (x >= LEFT) view.choose(this.own().frameAt(x), { still: true });
    });
  }

  // The lanes' window at this panel's width.
  own() {
    const { axis } = this.view;
    const own = new Axis(axis.session, axis.window);
    own.tockPlaces = axis.tockPlaces;
    own.width = this.scroll.clientWidth;
    return own;
  }

  // Name, steps, and the most that there can be, if that is known.
  all() {
    const { session } = this.view;
    const { configuration, series } = session;
    const queues = series.queues.map((steps, place) => {
      return [`queue ${session.names.get(`q${place + 1}`) || place + 1}`, steps, configuration.queues[place][1]];
    });
    return [...queues, ["messages", series.messages, configuration.messages], ["timers", series.timers, configuration.timers],
      ["reissues", series.reissues, 0]];
  }

  draw(paint) {
    if (this.scroll.hidden) return;
    const plots = this.all();
    const axis = this.own();
    const pen = drawOn(this.canvas, axis.width, plots.length * (PLOT_HEIGHT + PLOT_GAP) + 12);
    plots.forEach(([name, steps, most], place) => {
      const top = 8 + place * (PLOT_HEIGHT + PLOT_GAP);
      this.plot(pen, paint, axis, name, steps, most || Math.max(1, largest(steps)), top, most > 0);
    });
    const x = axis.x(this.view.frame);
    if (x < LEFT || x > axis.width) return;
    pen.fillStyle = paint.chosenedge;
    pen.fillRect(x, 0, 2, plots.length * (PLOT_HEIGHT + PLOT_GAP) + 8);
  }

  plot(pen, paint, axis, name, steps, most, top, known) {
    const bottom = top + PLOT_HEIGHT;
    pen.fillStyle = paint.text;
    pen.fillText(fitted(pen, name, LEFT - 40), 8, top + 8);
    pen.fillStyle = paint.quiet;
    pen.fillText(`${steps.at(this.view.frame)} ${known ? "of" : "now, most"} ${most}`, 8, top + 24);
    pen.strokeStyle = paint.grid;
    for (const y of [top + 0.5, bottom + 0.5]) pen.strokeRect(LEFT, y, axis.width - LEFT, 0.01);
    const [first, last] = axis.seen();
    const column = { x: -1, low: 0, high: 0 };
    const flush = () => {
      if (column.x < 0) return;
      const [high, low] = [PLOT_HEIGHT * column.high / most, PLOT_HEIGHT * column.low / most];
      pen.fillStyle = paint.plain[LANE.ready];
      pen.fillRect(column.x, bottom - high, 1, high);
      pen.fillStyle = paint.plain[LANE.running];
      pen.fillRect(column.x, bottom - high, 1, Math.max(2, high - low));
    };
    const add = (x, value) => {
      if (x !== column.x) flush(), Object.assign(column, { x, low: value, high: value });
      column.low = Math.min(column.low, value);
      column.high = Math.max(column.high, value);
    };
    for (let place = steps.place(first); place < steps.from.length && steps.from[place] < last; place++) {
      const end = place + 1 < steps.from.length ? Math.min(steps.from[place + 1], last) : last;
      const from = Math.max(LEFT, Math.floor(axis.x(Math.max(first, steps.from[place]))));
      const to = Math.min(axis.width, Math.max(from + 1, Math.floor(axis.x(end))));
      for (let x = from; x < to; x++) add(x, steps.value[place]);
    }
    flush();
  }
}

function largest(steps) {
  let most = 0;
  for (const value of steps.value) if (value > most) most = value;
  return most;
}
