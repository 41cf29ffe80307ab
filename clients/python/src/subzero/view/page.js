// The page of a run: its arrays as canvases, and the lineage of what is selected in each of them.
//
// Values come once, as bytes. A selection is sent to the page's server, and its answer is the marked cells of all
// arrays as runs within rows, which are drawn over the values. Nothing here computes lineage.

"use strict";

const COLOURS = { back: [255, 162, 74], forward: [86, 182, 255], asked: [255, 255, 255] };
const FILLS = { back: 105, forward: 105, asked: 70 };
const HEAD = 46, FOOT = 46, LAYERS = 26, BETWEEN = 20, EDGE = 18, LANE = 26;
const NARROWEST = 150, WIDEST = 440;
const POLL = 700;
const GROUND = 0xff110f0d;

const by = (id) => document.getElementById(id);

const state = {
  run: null, panels: [], views: new Map(), layers: new Map(), origin: "upper", stretch: "linear", limits: 3,
  sense: "stood", shown: { back: true, forward: true }, selection: null, answer: null, told: 0, close: false,
};

// What tests and a curious console may read: the marks of each array, and how long the last click took.
window.page = {
  state,
  timing: null,
  geometry: (panel) => geometry(panel),
  asking: () => asking || wanted !== null,
  unpoint: () => hover(null, null),
  value: (number, cell) => valueWords(state.panels[number], cell),
  npy: async (number) => new Uint8Array(await npyOf(state.panels[number]).arrayBuffer()),
  marked(number) {
    const marks = state.panels[number].marks;
    if (!marks) return null;
    const cells = [];
    for (let at = 0; at < marks.runs.length; at += 2) {
      for (let cell = 0; cell < marks.runs[at + 1]; cell++) cells.push(marks.runs[at] + cell);
    }
    return { as: marks.as, cells };
  },
  place(number, row, column) {
    const panel = state.panels[number], g = geometry(panel), box = panel.view.getBoundingClientRect();
    return [box.left + g.x(column + 0.5) / devicePixelRatio, box.top + g.y(row + 0.5) / devicePixelRatio];
  },
  zoom(number, row, column, zoom) {
    Object.assign(viewOf(state.panels[number]), { row, column, zoom });
    bound(state.panels[number]);
    drawAlike(state.panels[number]);
  },
};

// ---- Words ----------------------------------------------------------------------------------------------------------

const figure = (number) => number.toLocaleString("en");
const capital = (words) => words[0].toUpperCase() + words.slice(1);

function cellsWord(number, raw) {
  return `${number === 0 ? "no" : figure(number)} ${raw ? "raw " : ""}cell${number === 1 ? "" : "s"}`;
}

// What is asked, in words: of one selected cell, or of several.
const SENSES = {
  stood: {
    meaning: "What the selected cell was made of, and what was made of it, as the run went.",
    legend: { back: "stood behind it", forward: "were touched by it" },
    one: { back: "stood behind it", forward: "touched by it" },
    several: { back: "stood behind them", forward: "touched by them" },
  },
  could: {
    meaning: "What fixes the selected cell's value, and what could have another value if this cell had.",
    legend: { back: "could change it", forward: "could change with it" },
    one: { back: "could change it", forward: "could change with it" },
    several: { back: "could change them", forward: "could change with them" },
  },
};

function placeWords(panel, layer, row, column) {
  const words = `row ${row}, column ${column}`;
  return panel.told.axes === 3 ? `layer ${layer}, ${words}` : words;
}

function selectedWords() {
  const { title, base } = state.panels[state.selection.array].told, raw = base ? "raw " : "";
  const count = state.answer.count;
  return count === 1 ? `this ${raw}cell of ${title}` : `these ${figure(count)} ${raw}cells of ${title}`;
}

const isShown = (marks) => marks.as === "asked" || state.shown[marks.as];

function joined(words) {
  return words.length < 2 ? words.join("") : `${words.slice(0, -1).join(", ")} and ${words[words.length - 1]}`;
}

/** The shown arrays that a direction reached and from which nothing leads on: base arrays, or the last nodes. */
function ends(direction) {
  if (!state.shown[direction]) return [];
  const onward = new Set(state.run.arrows.map((arrow) => arrow[direction === "back" ? 1 : 0]));
  return state.panels.filter((panel) => panel.marks?.as === direction && !onward.has(panel.number));
}

function endsWords(panels, raw) {
  if (raw && panels.length === 1) return cellsWord(panels[0].marks.count, true);
  return joined(panels.map((panel) => `${cellsWord(panel.marks.count)} of ${panel.told.title}`));
}

/** The sentence above the arrays, as pieces: a text, and where it has one the name of its colour. */
function sentence() {
  if (!state.answer) return [["Click a cell of any array."]];
  if (state.answer.count === 0) return [["No cell is selected."]];
  const self = selectedWords(), one = state.answer.count === 1, behind = ends("back"), ahead = ends("forward");
  const pieces = [];
  if (behind.length) {
    pieces.push([capital(endsWords(behind, true)), "back"]);
    pieces.push([state.sense === "stood" ? ` stood behind ${self}` : ` could change ${self}`]);
  }
  if (ahead.length && state.sense === "stood") {
    pieces.push([behind.length ? `; ${one ? "it" : "they"} touched ` : `${capital(self)} touched `]);
    pieces.push([endsWords(ahead), "forward"]);
  } else if (ahead.length) {
    pieces.push([behind.length ? "; " : ""], [behind.length ? endsWords(ahead) : capital(endsWords(ahead)), "forward"]);
    pieces.push([` could change with ${behind.length ? (one ? "it" : "them") : self}`]);
  }
  return pieces.length ? [...pieces, ["."]] : [[capital(self)], ["."]];
}

/** The line below an array. */
function countWords(panel) {
  const marks = panel.marks, { empty, base } = panel.told;
  const all = `${figure(size(panel))} cells`;
  if (!state.answer) return empty ? `${figure(empty)} of ${all} empty` : all;
  if (!marks) return "no path leads here";
  if (!isShown(marks)) return "not shown";
  const one = state.answer.count === 1, narrow = panel.root.offsetWidth < 205;
  if (marks.as === "asked" && one) {
    const [layer, row, column] = placeOf(panel, marks.runs[0]);
    const words = narrow ? `${row}, ${column}` : placeWords(panel, layer, row, column);
    return `${words}: ${valueWords(panel, marks.runs[0])}`;
  }
  const cells = cellsWord(marks.count, base && marks.as === "back");
  if (marks.as === "asked") return `${cells} selected`;
  return narrow ? cells : `${cells} ${SENSES[state.sense][one ? "one" : "several"][marks.as]}`;
}

/** How the steps into an array were answered. */
function wayWords(panel) {
  const steps = (state.answer?.steps ?? []).filter(([node, input, direction]) => {
    const [source] = state.run.arrows.find((arrow) => arrow[1] === node && arrow[2] === input);
    return state.shown[direction] && panel.number === (direction === "back" ? source : node);
  });
  const ways = [...new Set(steps.map((step) => step[3]))];
  const traced = steps.reduce((sum, step) => sum + step[4], 0);
  if (!ways.length) return "";
  return `by ${ways.join(", ")}${traced ? `, ${figure(traced)} cells traced` : ""}`;
}

function valueWords(panel, cell) {
  if (!panel.values) return "";
  if (panel.empty && panel.empty[cell >> 3] & (128 >> (cell & 7))) return "empty";
  return panel.values[cell].toLocaleString("en");
}

// ---- Arrays and where their cells stand -----------------------------------------------------------------------------

const size = (panel) => panel.told.shape[0] * panel.told.shape[1] * panel.told.shape[2];

function placeOf(panel, cell) {
  const [, height, width] = panel.told.shape;
  return [Math.floor(cell / (height * width)), Math.floor(cell / width) % height, cell % width];
}

function cellOf(panel, layer, row, column) {
  const [, height, width] = panel.told.shape;
  return (layer * height + row) * width + column;
}

const layerOf = (panel) => (panel.told.shape[0] > 1 ? state.layers.get(panel.told.shape[0]) ?? 0 : 0);

/** What part of the arrays of one height and width is seen: how many times as large as the whole, and its middle. */
function viewOf(panel) {
  const [, height, width] = panel.told.shape, key = `${height}x${width}`;
  if (!state.views.has(key)) state.views.set(key, { zoom: 1, row: height / 2, column: width / 2 });
  return state.views.get(key);
}

const alike = (panel) => state.panels.filter((other) => viewOf(other) === viewOf(panel));

/** Where cells lie on a panel's canvas, in its own pixels. */
function geometry(panel) {
  const [, height, width] = panel.told.shape, view = viewOf(panel);
  const wide = panel.base.width, high = panel.base.height;
  const scale = Math.min(wide / width, high / height) * view.zoom;
  const left = wide / 2 - view.column * scale, lower = state.origin === "lower";
  const top = lower ? high / 2 + view.row * scale : high / 2 - view.row * scale;
  const turn = lower ? -scale : scale;
  return {
    wide, high, scale, left, top, lower,
    x: (column) => left + column * scale,
    y: (row) => top + row * turn,
    column: (x) => Math.floor((x - left) / scale),
    row: (y) => Math.floor((y - top) / turn),
  };
}

/** Keep a view within its array. */
function bound(panel) {
  const [, height, width] = panel.told.shape, view = viewOf(panel);
  view.zoom = Math.max(1, Math.min(view.zoom, Math.max(width, height) / 4));
  const fit = Math.min(panel.base.width / width, panel.base.height / height) * view.zoom;
  for (const [axis, cells, pixels] of [["row", height, panel.base.height], ["column", width, panel.base.width]]) {
    const half = pixels / fit / 2;
    view[axis] = half * 2 >= cells ? cells / 2 : Math.max(half, Math.min(cells - half, view[axis]));
  }
}

// ---- Drawing --------------------------------------------------------------------------------------------------------

const STRETCHES = { linear: (x) => x, sqrt: Math.sqrt, log: (x) => Math.log(1000 * x + 1) / Math.log(1001) };

/** A colour for each label, one turn of the golden section behind the other in the order of the labels. */
function labelColour(rank) {
  const hue = (40 + rank * 222.492) % 360, light = 0.52 + 0.08 * (rank % 3), rich = 0.5 * Math.min(light, 1 - light);
  const part = (n) => {
    const k = (n + hue / 30) % 12;
    return Math.round(255 * (light - rich * Math.max(-1, Math.min(k - 3, 9 - k, 1))));
  };
  return 0xff000000 | (part(4) << 16) | (part(8) << 8) | part(0);
}

/** The colours of a panel's labels. Labels of several arrays that are alike have like colours. */
function colourLabels() {
  if (!state.colours) {
    const labels = new Set([0]);
    for (const one of state.panels) if (one.told.labels) for (const label of one.numbers ?? []) labels.add(label);
    const sorted = [...labels].sort((a, b) => a - b);
    state.colours = new Map(sorted.map((label, rank) => [label, label > 0 ? labelColour(rank) : GROUND]));
  }
  return state.colours;
}

/** Paint a panel's shown layer, a pixel a cell; empty cells stay clear. */
function paintValues(panel) {
  if (!panel.numbers) return;
  const [, height, width] = panel.told.shape, first = layerOf(panel) * height * width;
  panel.sheet ??= sheet(width, height);
  const context = panel.sheet.getContext("2d"), image = context.createImageData(width, height);
  const pixels = new Uint32Array(image.data.buffer), numbers = panel.numbers;
  if (panel.told.labels) {
    const colours = colourLabels();
    for (let at = 0; at < pixels.length; at++) pixels[at] = colours.get(numbers[first + at]);
  } else {
    const [low, high] = panel.told.limits[state.limits], steps = 1023, factor = steps / (high - low);
    const greys = new Uint32Array(steps + 1);
    for (let step = 0; step <= steps; step++) {
      greys[step] = 0xff000000 | (Math.round(12 + 238 * STRETCHES[state.stretch](step / steps)) * 0x010101);
    }
    for (let at = 0; at < pixels.length; at++) {
      const step = (numbers[first + at] - low) * factor;
      pixels[at] = greys[step <= 0 ? 0 : step >= steps ? steps : step | 0];
    }
  }
  if (panel.empty) {
    for (let at = 0; at < pixels.length; at++) {
      const cell = first + at;
      if (panel.empty[cell >> 3] & (128 >> (cell & 7))) pixels[at] = 0;
    }
  }
  context.putImageData(image, 0, 0);
}

const sheet = (width, height) => Object.assign(document.createElement("canvas"), { width, height });

/** The hatch of empty cells. */
function hatch(context) {
  const side = Math.round(6 * devicePixelRatio), tile = sheet(side, side), pen = tile.getContext("2d");
  pen.fillStyle = "#33303d";
  pen.fillRect(0, 0, side, side);
  pen.strokeStyle = "#8d82ad";
  pen.lineWidth = Math.max(1, side / 6);
  for (const shift of [-side, 0, side]) {
    pen.beginPath();
    pen.moveTo(shift, side);
    pen.lineTo(shift + side, 0);
    pen.stroke();
  }
  return context.createPattern(tile, "repeat");
}

/** Draw a panel's values as its view shows them. */
function drawValues(panel) {
  const context = panel.base.getContext("2d"), g = geometry(panel), [, height, width] = panel.told.shape;
  context.clearRect(0, 0, g.wide, g.high);
  if (!panel.sheet) return;
  const top = Math.min(g.y(0), g.y(height));
  if (panel.empty) {
    context.fillStyle = hatch(context);
    context.fillRect(g.left, top, width * g.scale, height * g.scale);
  }
  context.save();
  context.imageSmoothingEnabled = g.scale < 1 && !panel.told.labels;
  context.imageSmoothingQuality = "medium";
  if (g.lower) {
    context.translate(0, g.top);
    context.scale(1, -1);
    context.drawImage(panel.sheet, g.left, 0, width * g.scale, height * g.scale);
  } else {
    context.drawImage(panel.sheet, g.left, g.top, width * g.scale, height * g.scale);
  }
  context.restore();
  if (g.scale >= 34 * devicePixelRatio) drawFigures(panel, context, g);
}

/** Write the values into the cells, where these are large enough. */
function drawFigures(panel, context, g) {
  const [, height, width] = panel.told.shape, layer = layerOf(panel), seen = seenCells(panel, g);
  context.font = `${Math.round(10.5 * devicePixelRatio)}px system-ui, sans-serif`;
  context.textAlign = "center";
  context.textBaseline = "middle";
  for (let row = Math.max(0, seen.top); row <= Math.min(height - 1, seen.bottom); row++) {
    for (let column = Math.max(0, seen.left); column <= Math.min(width - 1, seen.right); column++) {
      const words = valueWords(panel, cellOf(panel, layer, row, column)).replaceAll(",", "");
      context.lineWidth = 3 * devicePixelRatio;
      context.strokeStyle = "rgba(10, 11, 13, 0.75)";
      context.strokeText(words, g.x(column + 0.5), g.y(row + 0.5), g.scale - 4);
      context.fillStyle = "#f0f2f5";
      context.fillText(words, g.x(column + 0.5), g.y(row + 0.5), g.scale - 4);
    }
  }
}

function seenCells(panel, g) {
  const rows = [g.row(0), g.row(g.high - 1)], columns = [g.column(0), g.column(g.wide - 1)];
  return { top: Math.min(...rows), bottom: Math.max(...rows), left: columns[0], right: columns[1] };
}

/** Draw a panel's marks: the cells filled half through, and an edge round all. Each is as large as can be seen. */
function drawMarks(panel) {
  const context = panel.over.getContext("2d"), g = geometry(panel), marks = panel.marks;
  context.clearRect(0, 0, g.wide, g.high);
  if (!marks || !marks.runs.length || !isShown(marks)) return;
  const box = fillMask(panel, g, marks.runs);
  if (!box) return;
  const [left, top, right, bottom] = box, wide = right - left, high = bottom - top;
  const image = context.createImageData(wide, high), pixels = new Uint32Array(image.data.buffer);
  const [red, green, blue] = COLOURS[marks.as], colour = (blue << 16) | (green << 8) | red;
  const inner = ((FILLS[marks.as] << 24) | colour) >>> 0, edge = (0xff000000 | colour) >>> 0;
  const mask = panel.mask, thick = Math.max(1, Math.round(devicePixelRatio * 1.2)), across = g.wide;
  for (let y = top; y < bottom; y++) {
    for (let x = left; x < right; x++) {
      const at = y * across + x;
      if (!mask[at]) continue;
      const within = x >= left + thick && x < right - thick && y >= top + thick && y < bottom - thick
        && mask[at - thick] && mask[at + thick] && mask[at - thick * across] && mask[at + thick * across];
      pixels[(y - top) * wide + x - left] = within ? inner : edge;
    }
  }
  context.putImageData(image, left, top);
  for (let y = top; y < bottom; y++) mask.fill(0, y * across + left, y * across + right);
  if (Math.max(wide, high) < 22 * devicePixelRatio) drawReticle(context, box, `rgb(${COLOURS[marks.as].join(" ")})`);
}

/** Set the pixels of a panel's mask that marked cells cover; gives the box round them, null for none. */
function fillMask(panel, g, runs) {
  const [, height, width] = panel.told.shape, cells = height * width, first = layerOf(panel) * cells;
  if (panel.mask?.length !== g.wide * g.high) panel.mask = new Uint8Array(g.wide * g.high);
  const mask = panel.mask, least = Math.min(Math.max(g.scale, 3 * devicePixelRatio), 8 * devicePixelRatio);
  let left = g.wide, top = g.high, right = 0, bottom = 0;
  for (let at = firstRun(runs, first); at < runs.length && runs[at] < first + cells; at += 2) {
    const cell = runs[at] - first, row = Math.floor(cell / width), column = cell - row * width;
    const [x0, x1] = span(g.x(column), g.x(column + runs[at + 1]), least, g.wide);
    const ends = g.lower ? [g.y(row + 1), g.y(row)] : [g.y(row), g.y(row + 1)];
    const [y0, y1] = span(ends[0], ends[1], least, g.high);
    if (x0 >= x1 || y0 >= y1) continue;
    for (let y = y0; y < y1; y++) mask.fill(1, y * g.wide + x0, y * g.wide + x1);
    if (x0 < left) left = x0;
    if (y0 < top) top = y0;
    if (x1 > right) right = x1;
    if (y1 > bottom) bottom = y1;
  }
  return left < right ? [left, top, right, bottom] : null;
}

/** The whole pixels from one place to another, at least so many, within the canvas. */
function span(from, to, least, most) {
  if (to - from < least) [from, to] = [(from + to - least) / 2, (from + to + least) / 2];
  return [Math.max(0, Math.round(from)), Math.min(most, Math.round(to))];
}

/** The place of the first run at or behind a cell. */
function firstRun(runs, cell) {
  let low = 0, high = runs.length / 2;
  while (low < high) {
    const middle = (low + high) >> 1;
    if (runs[2 * middle] < cell) low = middle + 1;
    else high = middle;
  }
  return 2 * low;
}

/** Four short lines round a small mark, as on a finding chart. */
function drawReticle(context, [left, top, right, bottom], colour) {
  const ratio = devicePixelRatio, x = (left + right) / 2, y = (top + bottom) / 2;
  const from = Math.max(right - left, bottom - top) / 2 + 5 * ratio, to = from + 9 * ratio;
  context.beginPath();
  for (const [across, down] of [[1, 0], [-1, 0], [0, 1], [0, -1]]) {
    context.moveTo(x + across * from, y + down * from);
    context.lineTo(x + across * to, y + down * to);
  }
  context.lineCap = "round";
  context.strokeStyle = "rgba(0, 0, 0, 0.6)";
  context.lineWidth = 3.6 * ratio;
  context.stroke();
  context.strokeStyle = colour;
  context.lineWidth = 1.7 * ratio;
  context.stroke();
}

function drawAlike(panel) {
  for (const other of alike(panel)) {
    drawValues(other);
    drawMarks(other);
  }
}

function repaint() {
  for (const panel of state.panels) {
    paintValues(panel);
    drawValues(panel);
  }
}

// ---- The board ------------------------------------------------------------------------------------------------------

function element(name, className, text) {
  const made = document.createElement(name);
  if (className) made.className = className;
  if (text !== undefined) made.textContent = text;
  return made;
}

function makePanel(told, number) {
  const panel = { told, number, marks: null, values: null, numbers: null, empty: null };
  const [layers, height, width] = told.shape, root = element("section", "panel");
  root.dataset.array = number;
  const head = element("div", "head"), shape = `${told.axes === 3 ? `${layers} × ` : ""}${height} × ${width}`;
  const chip = element("span", "chip", told.base ? "raw" : waysOf(number));
  const detail = told.detail ? `${told.detail} · ${shape}` : shape;
  chip.title = told.base ? "a base array" : "how the lineage of this step is kept";
  head.append(chip, element("h2", "", told.title), element("div", "detail", detail));
  head.title = `${told.title}, ${detail}`;
  panel.view = element("div", "view");
  panel.base = element("canvas", "values");
  panel.over = element("canvas", "marks");
  panel.cross = element("div", "cross");
  panel.drag = element("div", "drag");
  panel.tip = element("div", "tip");
  panel.view.append(panel.base, panel.over, panel.cross, panel.drag, panel.tip);
  root.append(head, panel.view);
  if (layers > 1) root.append(makeSlider(panel, layers));
  const foot = element("div", "foot");
  panel.count = Object.assign(element("button", "count"), { title: "close up on these cells" });
  panel.way = element("div", "way");
  panel.save = Object.assign(element("button", "save", "npy"), { title: "save these cells as a boolean numpy array" });
  panel.save.hidden = true;
  panel.count.addEventListener("click", () => countClicked(panel));
  panel.save.addEventListener("click", () => saveCells(panel));
  foot.append(panel.count, panel.way, panel.save);
  root.append(foot);
  panel.root = root;
  listen(panel);
  by("board").append(root);
  return panel;
}

function makeSlider(panel, layers) {
  const row = element("label", "layers");
  panel.slider = Object.assign(element("input"), { type: "range", min: 0, max: layers - 1, value: 0 });
  panel.slider.setAttribute("aria-label", "layer");
  panel.layerWords = element("span");
  panel.slider.addEventListener("input", () => showLayer(layers, Number(panel.slider.value)));
  row.append(panel.slider, panel.layerWords);
  return row;
}

/** The strategies of a node's steps, each once. */
function waysOf(number) {
  return [...new Set(state.run.ways.filter((step) => step[0] === number).map((step) => step[3]))].join(", ");
}

function showLayer(layers, layer) {
  state.layers.set(layers, Math.max(0, Math.min(layers - 1, layer)));
  for (const panel of state.panels.filter((one) => one.told.shape[0] === layers)) {
    paintValues(panel);
    drawValues(panel);
    drawMarks(panel);
    tellLayer(panel);
  }
}

function tellLayer(panel) {
  if (!panel.slider) return;
  const layer = layerOf(panel), layers = panel.told.shape[0], seen = panel.marks && isShown(panel.marks);
  const marked = seen ? panel.marks.layers : [];
  panel.slider.value = layer;
  const others = marked.filter((one) => one !== layer).length;
  panel.layerWords.textContent = `layer ${layer}${others ? `, ${others} more marked` : ""}`;
  panel.slider.title = `layers 0 to ${layers - 1}${marked.length ? `, marks in ${marked.join(", ")}` : ""}`;
}

/** How high a panel stands, when it is so wide. */
function heights(panel, wide) {
  const [layers, height, width] = panel.told.shape;
  const view = Math.round(Math.max(52, Math.min(wide * 1.25, (wide * height) / width)));
  return { view, all: HEAD + view + (layers > 1 ? LAYERS : 0) + FOOT };
}

/** How high a column stands, when it is so wide. */
function columnHeight(slots, wide) {
  const tall = ([kind, number]) => (kind === "lane" ? LANE : heights(state.panels[number], wide).all);
  return slots.reduce((sum, slot) => sum + tall(slot) + BETWEEN, -BETWEEN);
}

/** Put the panels into their columns, as large as the window allows, and draw the arrows. */
function layOut() {
  const board = by("board"), columns = state.run.columns, places = new Map(), gap = columns.length > 6 ? 42 : 58;
  const most = (board.clientWidth - 2 * EDGE - (columns.length - 1) * gap) / columns.length;
  const high = (wide) => Math.max(...columns.map((slots) => columnHeight(slots, wide)));
  let wide = Math.floor(Math.max(NARROWEST, Math.min(WIDEST, most)));
  while (wide > NARROWEST * 1.2 && high(wide) > board.clientHeight - 2 * EDGE) wide -= 4;
  const all = high(wide), across = columns.length * wide + (columns.length - 1) * gap;
  const from = Math.max(EDGE, (board.clientWidth - across) / 2);
  const down = Math.max(EDGE, Math.min(60, (board.clientHeight - all) / 2));
  columns.forEach((slots, column) => {
    const x = from + column * (wide + gap);
    let y = down + (all - columnHeight(slots, wide)) / 2;
    for (const [kind, number] of slots) {
      const tall = kind === "lane" ? LANE : heights(state.panels[number], wide).all;
      places.set(kind === "lane" ? `lane ${number} ${column}` : `array ${number}`, { x, y, wide, tall });
      if (kind === "array") placePanel(state.panels[number], x, y, wide);
      y += tall + BETWEEN;
    }
  });
  by("arrows").setAttribute("width", from + across + EDGE);
  by("arrows").setAttribute("height", down + all + EDGE);
  drawArrows(places);
  for (const panel of state.panels) panel.count.textContent = countWords(panel);
}

function placePanel(panel, x, y, wide) {
  const { view } = heights(panel, wide), pixels = [wide, view].map((side) => Math.round(side * devicePixelRatio));
  Object.assign(panel.root.style, { left: `${x}px`, top: `${y}px`, width: `${wide}px` });
  panel.view.style.height = `${view}px`;
  for (const canvas of [panel.base, panel.over]) [canvas.width, canvas.height] = pixels;
  bound(panel);
  drawValues(panel);
  drawMarks(panel);
}

const SVG = "http://www.w3.org/2000/svg";

function drawn(name, attributes, text = "") {
  const made = document.createElementNS(SVG, name);
  for (const [attribute, value] of Object.entries(attributes)) made.setAttribute(attribute, value);
  made.textContent = text;
  return made;
}

/** The arrows that end at an array, in the order from top to bottom in which they come. */
function entries(end, places) {
  const from = (arrow) => {
    const lanes = state.run.columns.map((_, column) => places.get(`lane ${arrow} ${column}`)).filter(Boolean);
    const place = lanes.length ? lanes[lanes.length - 1] : places.get(`array ${state.run.arrows[arrow][0]}`);
    return place.y + place.tall / 2;
  };
  const found = state.run.arrows.flatMap((arrow, one) => (arrow[1] === end ? [one] : []));
  return found.sort((one, other) => from(one) - from(other) || one - other);
}

/** An arrow for each source of a node, through the lanes that are kept free for it. */
function drawArrows(places) {
  const drawing = by("arrows");
  drawing.replaceChildren();
  const middle = (panel, place) => place.y + HEAD + heights(panel, place.wide).view / 2;
  state.run.arrows.forEach(([begin, end, input], number) => {
    const source = state.panels[begin], target = state.panels[end];
    const out = places.get(`array ${begin}`), into = places.get(`array ${end}`);
    const beside = entries(end, places), rank = beside.indexOf(number);
    const y1 = middle(source, out), y2 = middle(target, into) + (rank - (beside.length - 1) / 2) * 26;
    let path = `M ${out.x + out.wide} ${y1}`, x = out.x + out.wide, y = y1;
    const bend = (toX, toY) => {
      const half = (toX - x) / 2;
      path += ` C ${x + half} ${y} ${toX - half} ${toY} ${toX} ${toY}`;
      [x, y] = [toX, toY];
    };
    for (const lane of state.run.columns.map((_, column) => places.get(`lane ${number} ${column}`)).filter(Boolean)) {
      bend(lane.x, lane.y + LANE / 2);
      path += ` L ${lane.x + lane.wide} ${y}`;
      x = lane.x + lane.wide;
    }
    bend(into.x - 9, y2);
    const group = drawn("g", { "data-arrow": number });
    const head = `M ${into.x - 1} ${y2} l -10 -5 l 0 10 z`;
    group.append(drawn("path", { d: path }), drawn("path", { d: head, class: "head" }));
    if (beside.length > 1) group.append(drawn("text", { x: into.x - 15, y: y2 - 5 }, String(input + 1)));
    drawing.append(group);
  });
  colourArrows();
}

function colourArrows() {
  const steps = state.answer?.steps ?? [];
  for (const group of by("arrows").children) {
    const [, end, input] = state.run.arrows[group.dataset.arrow];
    const step = steps.find((one) => one[0] === end && one[1] === input && state.shown[one[2]]);
    group.setAttribute("class", step ? step[2] : "");
  }
}

// ---- What is selected, and its answer -------------------------------------------------------------------------------

let asking = false, wanted = null;

/** Select cells, and ask for their lineage. Of several selections made while one is asked, the last is asked next. */
async function select(selection, begun = performance.now()) {
  state.selection = selection;
  wanted = { selection, sense: state.sense, begun };
  if (asking) return;
  asking = true;
  while (wanted) {
    const now = wanted;
    wanted = null;
    try {
      const bytes = await post("ask", { ...now.selection, sense: now.sense });
      if (state.selection) show(now, bytes);
    } catch (fault) {
      if (!wanted) tellFault(fault.message);
    }
  }
  asking = false;
}

async function post(name, body) {
  const headers = { "Content-Type": "application/json" };
  const reply = await fetch(name, { method: "POST", headers, body: JSON.stringify(body) });
  if (!reply.ok) throw new Error((await reply.text()).trim());
  return reply.arrayBuffer();
}

/** Draw an answer's marks, and tell its counts. */
function show(asked, bytes) {
  const arrived = performance.now();
  const length = new DataView(bytes).getUint32(0, true);
  const told = JSON.parse(new TextDecoder().decode(new Uint8Array(bytes, 4, length)));
  const words = new Uint32Array(bytes, 4 + length);
  for (const panel of state.panels) panel.marks = null;
  for (const marks of told.marks) {
    const panel = state.panels[marks.array], runs = words.subarray(marks.at, marks.at + 2 * marks.runs);
    panel.marks = { as: marks.as, count: marks.count, runs, layers: layersOf(panel, runs) };
  }
  state.answer = { steps: told.steps, count: told.marks[0].count, milliseconds: told.milliseconds };
  tellFault("");
  followLayers();
  if (state.close) closeUp(true);
  else followViews(asked.selection.array);
  drawAll();
  const drawn = performance.now();
  const number = (window.page.timing?.number ?? 0) + 1;
  window.page.timing = { number, all: drawn - asked.begun, arrived: arrived - asked.begun, program: told.milliseconds };
  tell();
  remember();
}

function clear() {
  state.selection = state.answer = wanted = null;
  for (const panel of state.panels) panel.marks = null;
  post("clear", {}).catch(() => {});
  drawAll();
  tell();
  remember();
}

function layersOf(panel, runs) {
  if (panel.told.shape[0] === 1) return runs.length ? [0] : [];
  const cells = panel.told.shape[1] * panel.told.shape[2], found = new Set();
  for (let at = 0; at < runs.length; at += 2) found.add(Math.floor(runs[at] / cells));
  return [...found];
}

/** Where a shown layer has no mark, and another one has, that one is shown. */
function followLayers() {
  for (const panel of state.panels) {
    const marked = panel.marks?.layers ?? [];
    if (panel.slider && marked.length && !marked.includes(layerOf(panel))) {
      const selected = state.panels[state.selection.array], layers = panel.told.shape[0];
      if (panel === selected || selected.told.shape[0] !== layers) showLayer(layers, marked[0]);
    }
  }
}

/** Where an array is seen close up and none of its marks can be seen, the view moves to them. */
function followViews(array) {
  const still = viewOf(state.panels[array]), moved = new Set();
  for (const panel of state.panels) {
    const view = viewOf(panel), box = panel.marks && boxOf(panel);
    if (view === still || view.zoom === 1 || moved.has(view) || !box) continue;
    const seen = seenCells(panel, geometry(panel));
    if (box.right < seen.left || box.left > seen.right || box.bottom < seen.top || box.top > seen.bottom) {
      [view.row, view.column] = [(box.top + box.bottom + 1) / 2, (box.left + box.right + 1) / 2];
      moved.add(view);
      bound(panel);
      for (const other of alike(panel)) drawValues(other);
    }
  }
}

/** The least rectangle that holds a panel's marks in the layer that is shown. */
function boxOf(panel) {
  const [, height, width] = panel.told.shape, cells = height * width, first = layerOf(panel) * cells;
  const runs = panel.marks.runs;
  let top = height, left = width, bottom = -1, right = -1;
  for (let at = firstRun(runs, first); at < runs.length && runs[at] < first + cells; at += 2) {
    const row = Math.floor((runs[at] - first) / width), column = (runs[at] - first) % width;
    top = Math.min(top, row);
    bottom = Math.max(bottom, row);
    left = Math.min(left, column);
    right = Math.max(right, column + runs[at + 1] - 1);
  }
  return bottom < 0 ? null : { top, left, bottom, right };
}

/** Zoom these panels' views onto their marks, those of arrays of one shape together; or show all arrays whole. */
function closeUp(close, panels = state.panels) {
  hover(null, null);
  for (const view of new Set(panels.map(viewOf))) {
    const same = state.panels.filter((panel) => viewOf(panel) === view), [, height, width] = same[0].told.shape;
    const boxes = close ? same.map((panel) => panel.marks && boxOf(panel)).filter(Boolean) : [];
    if (!boxes.length) {
      Object.assign(view, { zoom: 1, row: height / 2, column: width / 2 });
    } else {
      const top = Math.min(...boxes.map((box) => box.top)), bottom = Math.max(...boxes.map((box) => box.bottom)) + 1;
      const left = Math.min(...boxes.map((box) => box.left)), right = Math.max(...boxes.map((box) => box.right)) + 1;
      const tall = Math.max(8, (bottom - top) * 1.35 + 2), wide = Math.max(8, (right - left) * 1.35 + 2);
      const { base } = same[0], fit = Math.min(base.width / width, base.height / height);
      const zoom = Math.min(base.width / wide, base.height / tall) / fit;
      Object.assign(view, { zoom, row: (top + bottom) / 2, column: (left + right) / 2 });
    }
    for (const panel of same) {
      bound(panel);
      drawValues(panel);
      drawMarks(panel);
    }
  }
}

function countClicked(panel) {
  if (panel.marks) closeUp(true, [panel]);
  else if (panel.empty) select({ array: panel.number, parts: emptyParts(panel), kept: null });
}

/** The empty cells of a panel's array as rectangles: a run of cells in each row. */
function emptyParts(panel) {
  const parts = [], width = panel.told.shape[2];
  for (let cell = 0; cell < size(panel); cell++) {
    if (!(panel.empty[cell >> 3] & (128 >> (cell & 7)))) continue;
    const [layer, row, column] = placeOf(panel, cell);
    let last = column;
    while (last + 1 < width && panel.empty[(cell + 1) >> 3] & (128 >> ((cell + 1) & 7))) {
      last++;
      cell++;
    }
    parts.push([layer, row, column, row, last]);
  }
  return parts;
}

function drawAll() {
  document.body.classList.toggle("lit", state.answer !== null);
  for (const panel of state.panels) drawMarks(panel);
}

/** Tell what was found: the sentence, the line below each array, the colours of arrows and frames. */
function tell() {
  const line = by("sentence"), sense = SENSES[state.sense];
  line.className = state.answer ? "" : "idle";
  line.replaceChildren(...sentence().map(([text, colour]) => (colour ? element("b", colour, text) : text)));
  by("meaning").textContent = sense.meaning;
  for (const direction of ["back", "forward"]) {
    const button = by("legend").querySelector(`.${direction}`);
    const one = !state.answer || state.answer.count === 1;
    button.textContent = one ? sense.legend[direction] : sense.legend[direction].replace(/it$/, "them");
    button.setAttribute("aria-pressed", state.shown[direction]);
  }
  for (const panel of state.panels) {
    const as = panel.marks && isShown(panel.marks) ? panel.marks.as : "";
    panel.root.className = `panel ${as || (state.answer ? "none" : "")}`;
    panel.count.className = `count ${as}`;
    panel.count.textContent = countWords(panel);
    panel.way.textContent = wayWords(panel);
    panel.save.hidden = !panel.marks;
    tellLayer(panel);
  }
  for (const id of ["sense", "stretch"]) {
    for (const button of by(id).children) button.setAttribute("aria-checked", button.dataset.value === state[id]);
  }
  by("origin").textContent = state.origin === "upper" ? "row 0 top" : "row 0 bottom";
  by("time").textContent = timeWords();
  colourArrows();
}

function timeWords() {
  if (!state.answer) return "";
  const traced = state.answer.steps.reduce((sum, step) => sum + step[4], 0), steps = state.answer.steps.length;
  const took = window.page.timing ? `, in ${window.page.timing.all.toFixed(0)} ms` : "";
  return `${steps} step${steps === 1 ? "" : "s"}, ${traced ? figure(traced) : "no"} cells traced${took}`;
}

function tellFault(text) {
  by("fault").hidden = !text;
  by("fault").textContent = text;
}

// ---- Mouse and keys -------------------------------------------------------------------------------------------------

/** The place on a panel's canvas where the pointer is, as a row and a column, which may lie outside the array. */
function pointed(panel, event) {
  const box = panel.view.getBoundingClientRect(), g = geometry(panel), ratio = devicePixelRatio;
  return { row: g.row((event.clientY - box.top) * ratio), column: g.column((event.clientX - box.left) * ratio) };
}

/** The cell below the pointer, null where there is none. */
function cellAt(panel, event) {
  const { row, column } = pointed(panel, event), [, height, width] = panel.told.shape;
  return row >= 0 && row < height && column >= 0 && column < width ? { row, column } : null;
}

/** The cell that is nearest to the pointer. */
function nearest(panel, event) {
  const { row, column } = pointed(panel, event), [, height, width] = panel.told.shape;
  return { row: Math.max(0, Math.min(height - 1, row)), column: Math.max(0, Math.min(width - 1, column)) };
}

/** The rectangle from one cell to another, in the layer that is shown. */
function rectangle(panel, one, other) {
  const rows = [one.row, other.row].sort((a, b) => a - b), columns = [one.column, other.column].sort((a, b) => a - b);
  return [layerOf(panel), rows[0], columns[0], rows[1], columns[1]];
}

function listen(panel) {
  const view = panel.view;
  let down = null;
  view.addEventListener("pointerdown", (event) => {
    if (event.button !== 0) return;
    const { row, column } = viewOf(panel), shift = event.shiftKey;
    down = { x: event.clientX, y: event.clientY, from: nearest(panel, event), row, column, moved: false, shift };
    view.setPointerCapture(event.pointerId);
  });
  view.addEventListener("pointermove", (event) => {
    hover(panel, cellAt(panel, event));
    if (!down) return;
    down.moved ||= Math.hypot(event.clientX - down.x, event.clientY - down.y) > 4;
    if (down.moved && down.shift) outline(panel, down.from, nearest(panel, event));
    else if (down.moved) pan(panel, down, event);
  });
  view.addEventListener("pointerup", (event) => {
    const begun = performance.now(), was = down;
    down = null;
    panel.drag.style.display = "none";
    if (!was || (was.moved && !was.shift)) return;
    const to = was.moved ? nearest(panel, event) : cellAt(panel, event), from = was.moved ? was.from : to;
    if (to) add(panel, rectangle(panel, from, to), event.ctrlKey || event.metaKey, begun);
  });
  view.addEventListener("pointercancel", () => {
    down = null;
    panel.drag.style.display = "none";
  });
  view.addEventListener("pointerleave", () => hover(null, null));
  view.addEventListener("wheel", (event) => {
    event.preventDefault();
    zoomAt(panel, event, Math.exp(-event.deltaY * (event.deltaMode ? 0.05 : 0.0016)));
  }, { passive: false });
  view.addEventListener("dblclick", () => closeUp(false, [panel]));
}

/** Select a rectangle: alone, or beside what is selected in the same array. */
function add(panel, part, beside, begun) {
  const held = state.selection;
  if (beside && held?.array === panel.number) {
    select({ ...held, parts: [...held.parts, part] }, begun);
  } else {
    select({ array: panel.number, parts: [part], kept: null }, begun);
  }
}

function pan(panel, down, event) {
  const view = viewOf(panel), g = geometry(panel), ratio = devicePixelRatio / g.scale;
  view.column = down.column - (event.clientX - down.x) * ratio;
  view.row = down.row - (event.clientY - down.y) * ratio * (g.lower ? -1 : 1);
  bound(panel);
  drawAlike(panel);
}

function zoomAt(panel, event, factor) {
  const view = viewOf(panel), box = panel.view.getBoundingClientRect(), ratio = devicePixelRatio;
  const x = (event.clientX - box.left) * ratio, y = (event.clientY - box.top) * ratio, before = geometry(panel);
  const column = (x - before.left) / before.scale, row = ((y - before.top) / before.scale) * (before.lower ? -1 : 1);
  view.zoom *= factor;
  bound(panel);
  const scale = geometry(panel).scale;
  view.column = column - (x - before.wide / 2) / scale;
  view.row = row - ((y - before.high / 2) / scale) * (before.lower ? -1 : 1);
  bound(panel);
  drawAlike(panel);
  hover(panel, cellAt(panel, event));
}

/** A rectangle on the screen round cells. */
function frame(panel, mark, from, to) {
  const g = geometry(panel), ratio = devicePixelRatio;
  const x = [g.x(Math.min(from.column, to.column)), g.x(Math.max(from.column, to.column) + 1)];
  const y = [g.y(Math.min(from.row, to.row)), g.y(Math.max(from.row, to.row) + 1)].sort((a, b) => a - b);
  const wide = Math.max(5, (x[1] - x[0]) / ratio), high = Math.max(5, (y[1] - y[0]) / ratio);
  Object.assign(mark.style, {
    display: "block", width: `${wide}px`, height: `${high}px`,
    left: `${(x[0] + x[1]) / 2 / ratio - wide / 2}px`, top: `${(y[0] + y[1]) / 2 / ratio - high / 2}px`,
  });
}

const outline = (panel, from, to) => frame(panel, panel.drag, from, to);

/** Show the cell below the pointer in all arrays of its shape, with its value. */
function hover(panel, cell) {
  for (const other of state.panels) {
    const shown = cell && viewOf(other) === viewOf(panel);
    other.cross.style.display = other.tip.style.display = "none";
    if (!shown) continue;
    frame(other, other.cross, cell, cell);
    other.tip.style.display = "block";
    other.tip.textContent = valueWords(other, cellOf(other, layerOf(other), cell.row, cell.column));
  }
  by("readout").textContent = "";
  if (!cell) return;
  const words = placeWords(panel, layerOf(panel), cell.row, cell.column);
  const value = valueWords(panel, cellOf(panel, layerOf(panel), cell.row, cell.column));
  by("readout").textContent = `${panel.told.title}  ${words}: ${value}`;
}

/** Move the selected cell, or the last one that was added. */
function move(down, right) {
  const held = state.selection;
  if (!held || !held.parts.length) return;
  const panel = state.panels[held.array], [, height, width] = panel.told.shape;
  const last = held.parts[held.parts.length - 1];
  const row = Math.max(0, Math.min(height - 1, last[1] + (state.origin === "lower" ? -down : down)));
  const column = Math.max(0, Math.min(width - 1, last[2] + right));
  const view = viewOf(panel), seen = seenCells(panel, geometry(panel));
  if (row < seen.top || row > seen.bottom || column < seen.left || column > seen.right) {
    [view.row, view.column] = [row + 0.5, column + 0.5];
    bound(panel);
    drawAlike(panel);
  }
  select({ array: held.array, parts: [[last[0], row, column, row, column]], kept: null });
}

function setSense(sense) {
  state.sense = sense;
  tell();
  if (state.selection) select(state.selection);
}

/** Show one direction alone, or both where it was alone already. */
function alone(direction) {
  const other = direction === "back" ? "forward" : "back", was = state.shown[direction] && !state.shown[other];
  Object.assign(state.shown, { [direction]: true, [other]: was });
  drawAll();
  tell();
  remember();
}

function toggle(direction) {
  state.shown[direction] = !state.shown[direction];
  drawAll();
  tell();
  remember();
}

function setOrigin(origin) {
  state.origin = origin;
  for (const panel of state.panels) {
    drawValues(panel);
    drawMarks(panel);
  }
  tell();
  remember();
}

function zoomAll() {
  state.close = !state.close;
  by("zoom").setAttribute("aria-pressed", state.close);
  closeUp(state.close);
}

function turnLayer(by) {
  const selected = state.panels[state.selection?.array ?? -1];
  const layered = selected?.slider ? selected : state.panels.find((panel) => panel.slider);
  if (layered) showLayer(layered.told.shape[0], layerOf(layered) + by);
}

const KEYS = {
  ArrowUp: (far) => move(-far, 0), ArrowDown: (far) => move(far, 0),
  ArrowLeft: (far) => move(0, -far), ArrowRight: (far) => move(0, far),
  Escape: clear, b: () => alone("back"), f: () => alone("forward"), z: zoomAll,
  s: () => setSense(state.sense === "stood" ? "could" : "stood"),
  "[": () => turnLayer(-1), "]": () => turnLayer(1), "?": () => by("keys").showModal(),
};

document.addEventListener("keydown", (event) => {
  if (event.ctrlKey || event.metaKey || event.altKey || by("keys").open || !KEYS[event.key]) return;
  if (event.target.matches("select, input") && event.key.startsWith("Arrow")) return;
  event.preventDefault();
  KEYS[event.key](event.shiftKey ? 10 : 1);
});

// ---- Links and files ------------------------------------------------------------------------------------------------

/** Keep the selection in the link, so that it is there again where the link is opened. */
function remember() {
  const held = state.selection, words = new URLSearchParams();
  if (held) {
    words.set("array", held.array);
    if (held.parts.length) words.set("cells", held.parts.map((part) => part.join(".")).join("_"));
    if (held.kept !== null) words.set("kept", held.kept);
  }
  if (state.sense !== "stood") words.set("sense", state.sense);
  if (state.origin !== state.run.origin) words.set("origin", state.origin);
  const shown = ["back", "forward"].filter((direction) => state.shown[direction]);
  if (shown.length < 2) words.set("shown", shown[0] ?? "none");
  const fragment = words.toString();
  if (fragment.length < 60000) history.replaceState(null, "", fragment ? `#${fragment}` : location.pathname);
}

/** Take up what the link says; gives whether it has a selection. */
function recall() {
  const words = new URLSearchParams(location.hash.slice(1)), shown = words.get("shown");
  if (words.get("sense") === "could") state.sense = "could";
  if (["upper", "lower"].includes(words.get("origin"))) state.origin = words.get("origin");
  if (shown) state.shown = { back: shown === "back", forward: shown === "forward" };
  const array = Number(words.get("array") ?? NaN), cells = words.get("cells"), kept = words.get("kept");
  if (!state.panels[array]) return false;
  const parts = cells ? cells.split("_").map((part) => part.split(".").map(Number)) : [];
  if (parts.length && state.panels[array].slider) state.layers.set(state.panels[array].told.shape[0], parts[0][0]);
  select({ array, parts, kept: kept === null ? null : Number(kept) });
  return true;
}

async function copyLink() {
  try {
    await navigator.clipboard.writeText(location.href);
    flash("link", "copied");
  } catch {
    window.prompt("The link:", location.href);
  }
}

function flash(id, words) {
  const was = by(id).textContent;
  by(id).textContent = words;
  setTimeout(() => (by(id).textContent = was), 1200);
}

function save(blob, name) {
  const link = Object.assign(document.createElement("a"), { href: URL.createObjectURL(blob), download: name });
  link.click();
  setTimeout(() => URL.revokeObjectURL(link.href), 10000);
}

/** A panel's marks as the bytes of a boolean numpy array of its shape. */
function npyOf(panel) {
  const shape = panel.told.axes === 3 ? panel.told.shape : panel.told.shape.slice(1);
  const text = `{'descr': '|b1', 'fortran_order': False, 'shape': (${shape.join(", ")}), }`;
  const padded = text.padEnd(Math.ceil((text.length + 11) / 64) * 64 - 11) + "\n";
  const header = new Uint8Array(10 + padded.length);
  header.set([0x93, 0x4e, 0x55, 0x4d, 0x50, 0x59, 1, 0, padded.length & 255, padded.length >> 8]);
  header.set(new TextEncoder().encode(padded), 10);
  const cells = new Uint8Array(size(panel)), runs = panel.marks.runs;
  for (let at = 0; at < runs.length; at += 2) cells.fill(1, runs[at], runs[at] + runs[at + 1]);
  return new Blob([header, cells]);
}

function saveCells(panel) {
  const asked = state.panels[state.selection.array].told.title, as = panel.marks.as;
  const stood = { back: "behind", forward: "touched_by" }, could = { back: "changing", forward: "changing_with" };
  const name = (state.sense === "stood" ? stood : could)[as];
  save(npyOf(panel), name ? `${panel.told.title}_${name}_${asked}.npy` : `${asked}.npy`);
}

/** Draw the whole view, sentence and arrays and arrows, on one canvas. */
function drawPicture() {
  const ratio = Math.max(2, devicePixelRatio), board = by("arrows"), style = getComputedStyle(document.documentElement);
  const colour = (name) => style.getPropertyValue(`--${name}`).trim(), down = 56;
  const wide = Number(board.getAttribute("width")), high = down + Number(board.getAttribute("height"));
  const canvas = sheet(wide * ratio, high * ratio), pen = canvas.getContext("2d");
  const family = getComputedStyle(document.body).fontFamily;
  const write = (text, x, y, ink, font, most) => {
    pen.fillStyle = ink;
    pen.font = `${font} ${family}`;
    pen.fillText(text, x, y, most);
    return x + pen.measureText(text).width;
  };
  pen.scale(ratio, ratio);
  pen.fillStyle = colour("ground");
  pen.fillRect(0, 0, wide, high);
  let x = EDGE;
  for (const [text, as] of sentence()) x = write(text, x, 36, colour(as ?? "text"), `${as ? 600 : 400} 18px`);
  pen.translate(0, down);
  for (const group of board.children) {
    const [line, head, number] = group.children, ink = getComputedStyle(line).stroke;
    pen.strokeStyle = ink;
    pen.lineWidth = parseFloat(getComputedStyle(line).strokeWidth);
    pen.stroke(new Path2D(line.getAttribute("d")));
    pen.fillStyle = ink;
    pen.fill(new Path2D(head.getAttribute("d")));
    if (number) write(number.textContent, number.getAttribute("x") - 3, Number(number.getAttribute("y")), ink, "10px");
  }
  for (const panel of state.panels) {
    const { offsetLeft: left, offsetTop: top, offsetWidth: across, offsetHeight: tall } = panel.root;
    const at = top + HEAD, view = panel.view.offsetHeight, as = panel.marks?.as;
    pen.beginPath();
    pen.roundRect(left, top, across, tall, 8);
    pen.fillStyle = colour("panel");
    pen.fill();
    const shown = panel.marks && isShown(panel.marks);
    pen.strokeStyle = colour(shown ? as : "line");
    pen.stroke();
    write(panel.told.title, left + 10, top + 20, colour("text"), "600 13px", across - 20);
    write(panel.root.querySelector(".detail").textContent, left + 10, top + 36, colour("quiet"), "11.5px", across - 20);
    pen.fillStyle = "#0b0c0e";
    pen.fillRect(left, at, across, view);
    pen.imageSmoothingEnabled = false;
    pen.filter = getComputedStyle(panel.base).filter;
    pen.drawImage(panel.base, left, at, across, view);
    pen.filter = "none";
    pen.drawImage(panel.over, left, at, across, view);
    const foot = top + tall - FOOT;
    write(panel.count.textContent, left + 10, foot + 18, colour(shown ? as : "quiet"), "12px", across - 20);
    write(panel.way.textContent, left + 10, foot + 36, colour("quiet"), "11px", across - 20);
  }
  return canvas;
}

function savePicture() {
  drawPicture().toBlob((blob) => save(blob, `${state.run.flow}_${state.run.run}.png`));
}

// ---- The beginning --------------------------------------------------------------------------------------------------

const KINDS = { i1: Int8Array, i2: Int16Array, i4: Int32Array, i8: BigInt64Array };

async function loadValues(panel) {
  const reply = await fetch(`values/${panel.number}`);
  if (!reply.ok) throw new Error((await reply.text()).trim());
  const bytes = await reply.arrayBuffer(), Kind = KINDS[panel.told.kind], count = size(panel);
  panel.values = new Kind(bytes, 0, count);
  panel.numbers = panel.told.kind === "i8" ? Float64Array.from(panel.values, Number) : panel.values;
  const behind = count * Kind.BYTES_PER_ELEMENT;
  panel.empty = bytes.byteLength > behind ? new Uint8Array(bytes, behind) : null;
  state.colours = null; // its labels may be new ones
}

/** Ask now and then what was selected from Python, and whether the program still runs. */
async function watch() {
  try {
    const reply = await fetch("state");
    if (!reply.ok) throw new Error((await reply.text()).trim());
    const { told, offered, fault } = await reply.json();
    if (fault) tellFault(fault);
    offer(offered);
    if (told && told.kept !== state.told) {
      state.told = told.kept;
      select({ array: told.array, parts: [], kept: told.kept });
    }
  } catch (fault) {
    const lost = "The page has lost its server: the Python process has ended, or the page was closed.";
    tellFault(fault instanceof TypeError ? lost : fault.message);
  }
  setTimeout(watch, POLL);
}

/** The selections that Python offers by name, as buttons. */
function offer(offered) {
  const words = JSON.stringify(offered);
  if (by("offered").dataset.words === words) return;
  by("offered").dataset.words = words;
  by("offered").replaceChildren(...offered.map(({ kept, name, array, count }) => {
    const button = element("button", "", name);
    button.title = `select ${cellsWord(count)} of ${state.panels[array].told.title}`;
    button.addEventListener("click", () => select({ array, parts: [], kept }));
    return button;
  }));
}

function listenTools() {
  by("sense").addEventListener("click", (event) => event.target.dataset.value && setSense(event.target.dataset.value));
  by("stretch").addEventListener("click", (event) => {
    if (!event.target.dataset.value) return;
    state.stretch = event.target.dataset.value;
    repaint();
    tell();
  });
  for (const [number, within] of state.run.percentiles.entries()) {
    by("limits").append(new Option(within === 100 ? "all values" : `${within} %`, number));
  }
  by("limits").value = state.limits;
  by("limits").addEventListener("change", () => {
    state.limits = Number(by("limits").value);
    repaint();
  });
  by("legend").querySelector(".back").addEventListener("click", () => toggle("back"));
  by("legend").querySelector(".forward").addEventListener("click", () => toggle("forward"));
  by("origin").addEventListener("click", () => setOrigin(state.origin === "upper" ? "lower" : "upper"));
  by("zoom").addEventListener("click", zoomAll);
  by("link").addEventListener("click", copyLink);
  by("picture").addEventListener("click", savePicture);
  by("help").addEventListener("click", () => by("keys").showModal());
}

async function begin() {
  const reply = await fetch("run");
  if (!reply.ok) throw new Error((await reply.text()).trim());
  state.run = await reply.json();
  state.origin = state.run.origin;
  document.title = `${state.run.flow} ${state.run.run} · SubZero`;
  by("flow").textContent = state.run.flow;
  by("run").textContent = `run ${state.run.run}`;
  state.panels = state.run.arrays.map(makePanel);
  listenTools();
  tell();
  layOut();
  await Promise.all(state.panels.map(loadValues));
  repaint();
  tell();
  const now = await (await fetch("state")).json();
  if (recall()) state.told = now.told?.kept ?? 0;
  tell();
  new ResizeObserver(layOut).observe(by("board"));
  document.body.dataset.ready = "yes";
  watch();
}

begin().catch((fault) => tellFault(fault.message));
