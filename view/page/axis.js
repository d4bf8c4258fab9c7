// Where frames lie across: one after the other, or by tocks. Two sessions share one window.

const LEFT = 128; // the room for names
const NEAREST = 4; // frames that the closest zoom shows

// The stretch that is seen, in the axis's own units.
class Window {
  constructor() {
    this.from = 0;
    this.to = 1;
    this.kind = "frames";
  }
}

class Axis {
  constructor(session, window) {
    this.session = session;
    this.window = window;
    this.width = 600;
  }

  // Frame i begins here; `count` frames end at the end.
  position(frame) {
    return this.window.kind === "frames" ? frame : this.byTocks()[frame];
  }

  get end() {
    return this.position(this.session.count);
  }

  // Each tock is one wide, and its frames share it.
  byTocks() {
    if (this.tockPlaces) return this.tockPlaces;
    const { tocks, count } = this.session;
    const places = new Float64Array(count + 1);
    for (let first = 0; first < count;) {
      let next = first;
      while (next < count && tocks[next] === tocks[first]) next++;
      for (let frame = first; frame < next; frame++) places[frame] = tocks[first] + (frame - first) / (next - first);
      first = next;
    }
    places[count] = tocks[count - 1] + 1;
    this.tockPlaces = places;
    return places;
  }

  get scale() {
    return (this.width - LEFT) / (this.window.to - this.window.from);
  }

  x(frame) {
    return LEFT + (this.position(frame) - this.window.from) * this.scale;
  }

  unitsAt(x) {
    return this.window.from + (x - LEFT) / this.scale;
  }

  // The frame that lies at these units.
  frameOf(units) {
    let low = 0, high = this.session.count;
    if (this.window.kind === "frames") return clamp(Math.floor(units), 0, high - 1);
    const places = this.byTocks();
    while (low + 1 < high) {
      const middle = (low + high) >> 1;
      if (places[middle] <= units) low = middle; else high = middle;
    }
    return low;
  }

  frameAt(x) {
    return this.frameOf(this.unitsAt(x));
  }

  // The first frame that is seen, and the first that is not any more.
  seen() {
    return [this.frameAt(LEFT), Math.min(this.session.count, this.frameOf(this.window.to) + 1)];
  }

  show(from, to) {
    const least = this.window.kind === "frames" ? NEAREST : NEAREST * this.end / this.session.count;
    const size = clamp(to - from, Math.min(least, this.end), this.end);
    this.window.from = clamp(from, 0, this.end - size);
    this.window.to = this.window.from + size;
  }

  // Zooms about a place that stays where it is.
  zoom(factor, x) {
    const here = this.unitsAt(x);
    this.show(here - (here - this.window.from) * factor, here + (this.window.to - here) * factor);
  }

  move(units) {
    const size = this.window.to - this.window.from;
    const from = clamp(this.window.from + units, 0, Math.max(0, this.end - size));
    this.window.from = from;
    this.window.to = from + size;
  }

  // Moves no more than is needed to see a frame, with something on either side.
  reveal(frame) {
    const size = this.window.to - this.window.from;
    const place = this.position(frame);
    const seen = place >= this.window.from + size * 0.02 && place <= this.window.to - size * 0.05;
    if (!seen) this.move(place - size / 2 - this.window.from);
  }
}

const clamp = (value, least, most) => Math.max(least, Math.min(most, value));

// A canvas in the sharpness of the screen; gives what to draw with.
function drawOn(canvas, width, height) {
  const ratio = window.devicePixelRatio || 1;
  const [w, h] = [Math.max(1, Math.round(width * ratio)), Math.max(1, Math.round(height * ratio))];
  if (canvas.width !== w || canvas.height !== h) [canvas.width, canvas.height] = [w, h];
  canvas.style.height = `${height}px`;
  const pen = canvas.getContext("2d");
  pen.setTransform(ratio, 0, 0, ratio, 0, 0);
  pen.clearRect(0, 0, width, height);
  pen.font = '12px system-ui, "DejaVu Sans", "Liberation Sans", sans-serif';
  pen.textBaseline = "middle";
  return pen;
}

// Step of a scale's labels: 1, 2 or 5 times a power of ten.
function roundStep(least) {
  const power = 10 ** Math.floor(Math.log10(Math.max(least, 1)));
  return [1, 2, 5, 10].map((factor) => factor * power).find((step) => step >= least) || 1;
}
