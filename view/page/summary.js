// The tables of the whole session, and its busiest stretch.

const STRETCH = 100; // frames at most, until another number is asked for

class Summary {
  constructor(part, view) {
    this.view = view;
    this.box = part.querySelector(".summary");
    for (const table of view.session.tables) this.table(table);
    if (view.session.busiest) this.stretch(view.session.busiest.words);
    else if (view.session.count > 1) this.busiest();
  }

  table({ title, note, columns, rows }) {
    this.box.append(element("h2", "", title + (rows.length ? "" : ": none")));
    if (!rows.length) return;
    if (note) this.box.append(element("p", "", note));
    const table = element("table");
    table.dataset.title = title;
    const head = table.createTHead().insertRow();
    columns.forEach((column, place) => head.append(element("th", isNumber(rows[0][place]) ? "number" : "", column)));
    const body = table.createTBody();
    for (const row of rows) {
      const line = body.insertRow();
      for (const text of row) this.cell(line.insertCell(), text);
    }
    this.box.append(table);
  }

  // #12 leads to that frame.
  cell(cell, text) {
    if (isNumber(text)) cell.className = "number";
    for (const part of text.split(/(#\d+)/)) cell.append(/^#\d+$/.test(part) ? frameLink(Number(part.slice(1))) : part);
  }

  // The busiest stretch that was asked for.
  stretch(words) {
    const line = element("p", "busiest");
    this.cell(line, words[0].toUpperCase() + words.slice(1) + ".");
    this.box.append(element("h2", "", "Busiest stretch"), line);
  }

  // That of as many frames as are typed in.
  busiest() {
    const { session } = this.view;
    const frames = session.count - 1; // behind the configuration
    this.box.append(element("h2", "", "Busiest stretch"));
    const line = element("p");
    const input = element("input");
    const value = clamp(Math.round(frames / 10), 1, STRETCH);
    Object.assign(input, { type: "number", min: 1, max: frames, value });
    input.setAttribute("aria-label", "Frames of the stretch");
    const told = element("span", "busiest");
    const tell = () => {
      const width = clamp(Math.trunc(Number(input.value)) || 1, 1, frames);
      const { from, sum } = busiestStretch(session, width);
      told.replaceChildren(" frames: from ", frameLink(from), " to ", frameLink(from + width - 1), `, ${grouped(sum)} reissue${sum === 1 ? "" : "s"}`);
    };
    input.addEventListener("input", tell);
    tell();
    line.append("Of ", input, told, ".");
    this.box.append(line);
  }
}

const isNumber = (text) => /^[\d,.]+( %)?$/.test(text);

// Of the stretches of so many frames behind the configuration the earliest with the most reissues.
function busiestStretch(session, width) {
  let sum = 0, most = -1, from = 1;
  for (let frame = 1; frame < session.count; frame++) {
    sum += session.reissues(frame);
    if (frame > width) sum -= session.reissues(frame - width);
    if (frame >= width && sum > most) [most, from] = [sum, frame - width + 1];
  }
  return { from, sum: most };
}
