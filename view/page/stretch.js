// The busiest stretch that was asked for: a border about its frames in the lanes and the overview, and its label above the lanes, which
// leads to it.

class Stretch {
  constructor(part, view) {
    this.view = view;
    const { from, to, label, words } = view.session.busiest;
    Object.assign(this, { from, to, text: label });
    const row = element("div", "stretch-row");
    this.label = element("button", "stretch-label");
    this.label.title = words;
    this.label.addEventListener("click", () => view.choose(from));
    row.append(this.label);
    part.querySelector(".legend").after(row);
  }

  has(frame) {
    return this.from <= frame && frame <= this.to;
  }

  drawInLanes(pen, paint, height) {
    const { axis } = this.view;
    const [from, to] = [axis.x(this.from), axis.x(this.to + 1)];
    const side = to <= LEFT ? -1 : from >= axis.width ? 1 : 0;
    this.place(from, side);
    if (side === 0) border(pen, paint, Math.max(LEFT, from), to, height);
  }

  drawInOverview(pen, paint, scale) {
    const { axis } = this.view;
    border(pen, paint, axis.position(this.from) * scale, axis.position(this.to + 1) * scale, OVERVIEW_HEIGHT);
  }

  // Above its frames; where they are not seen, at that side. As a share of the row, which print makes as wide as the lanes.
  place(from, side) {
    this.label.textContent = ["\u25C0 " + this.text, this.text, this.text + " \u25B6"][side + 1];
    const left = clamp(from, LEFT, Math.max(LEFT, this.view.axis.width - this.label.offsetWidth));
    this.label.style.left = `${100 * left / this.label.parentElement.clientWidth}%`;
  }
}

// At whole pixels, at least three wide, open at the bottom.
function border(pen, paint, from, to, height) {
  const left = Math.round(from);
  const width = Math.max(3, Math.round(to) - left);
  pen.fillStyle = paint.reissued;
  pen.fillRect(left, 0, width, 3);
  pen.fillRect(left, 0, 2, height);
  pen.fillRect(left + width - 2, 0, 2, height);
}
