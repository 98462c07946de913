// What is shown: a number for each node, branch or cell, and its colour.
const NAMES = { EMPTY: 0, BARE: 1, FIRST: 2 };
const MOST_BANDS = 16;

// The quantities: of what (node, branch, cell), in which unit, and the value of a number.
function quantities(data) {
  const net = (node) => data.head.nets[data.nodeNet[node]];
  const list = {
    drop: { words: "drop against the supply", unit: "mV", of: "node", value: (node) => data.nodeDrop[node] / 1e6 },
    percent: { words: "drop in % of the supply", unit: "%", of: "node", value: (node) => 100 * data.nodeDrop[node] / (net(node).percentOf || NaN) },
    limit: { words: "share of the drop limit", unit: "%", of: "node", value: (node) => 100 * data.nodeDrop[node] / (net(node).limit || NaN) },
    current: { words: "share of the electromigration limit", unit: "%", of: "branch", value: (branch) => data.branchShare[branch] / 1e4 },
  };
  if (!data.head.nets.some((held) => held.limit)) delete list.limit;
  if (!data.head.nets.some((held) => held.percentOf)) delete list.percent;
  if (data.head.tied) list.cell = { words: "lost between power and ground of a cell", unit: "mV", of: "cell", value: (cell) => data.cellLost[cell] / 1e6 };
  return list;
}

// The least of 1, 2, 5, 10 .. times a power of ten of which few enough reach the top.
function stepFor(top) {
  if (!(top > 0)) return 1;
  for (let ten = 10 ** Math.floor(Math.log10(top / MOST_BANDS)); ; ten *= 10) {
    for (const digit of [1, 2, 5]) if (digit * ten * MOST_BANDS >= top * (1 - 1e-12)) return digit * ten;
  }
}

class Scale {
  constructor(top, stops) {
    this.step = stepFor(top);
    this.count = Math.max(Math.ceil(top / this.step - 1e-9), 1);
    this.colours = [];
    for (let band = 0; band < this.count; band++) this.colours.push(colourAt(stops, band / Math.max(this.count - 1, 1)));
  }

  // The code of a value: that of bare metal where there is none.
  code(value) {
    if (!(value >= 0)) return NAMES.BARE;
    return NAMES.FIRST + Math.min(Math.max(Math.ceil(value / this.step - 1e-9) - 1, 0), this.count - 1);
  }

  get beyond() { return NAMES.FIRST + this.count; }

  // The colours of all codes as 32 bits.
  palette(bare, beyond) {
    const colours = [[0, 0, 0, 0], [...bare, 255], ...this.colours.map((colour) => [...colour, 255]), [...beyond, 255]];
    return new Uint32Array(new Uint8Array(colours.flat()).buffer);
  }
}

function colourAt(stops, part) {
  const at = Math.min(Math.floor(part * (stops.length - 1)), stops.length - 2), rest = part * (stops.length - 1) - at;
  return stops[at].map((one, k) => Math.round(one + (stops[at + 1][k] - one) * rest));
}

const css = (colour) => `rgb(${colour.join(",")})`;

// The codes of all branches and cells for a state; what is hidden has the code of nothing.
function codesOf(data, state, quantity, scale) {
  const { head } = data, branches = new Uint8Array(data.branchStart.length);
  const isShown = (branch) => state.nets.has(data.nodeNet[data.branchStart[branch]])
    && (state.layers.has(data.branchLayer[branch]) || state.layers.has(data.branchUpper[branch]));
  for (let k = 0; k < branches.length; k++) if (isShown(k)) branches[k] = branchCode(data, k, quantity, scale);
  const cells = new Uint8Array(head.cells);
  for (let k = 0; k < cells.length && quantity.of === "cell"; k++) cells[k] = scale.code(quantity.value(k));
  const pieces = new Uint8Array(data.pieceNet.length);
  for (let k = 0; k < pieces.length; k++) pieces[k] = state.nets.has(data.pieceNet[k]) && state.layers.has(data.pieceLayer[k]) ? NAMES.BARE : 0;
  return { branches, cells, pieces };
}

function branchCode(data, k, quantity, scale) {
  if (quantity.of === "cell") return NAMES.BARE;
  if (quantity.of === "branch") return data.branchOver[k] ? scale.beyond : scale.code(quantity.value(k));
  const start = data.branchStart[k], end = data.branchEnd[k];
  if (data.nodeBeyond[start] || data.nodeBeyond[end]) return scale.beyond;
  return scale.code(Math.max(quantity.value(start), quantity.value(end)));
}

// Calls with the number, place and value of each thing that is shown by a quantity.
function eachShown(data, state, quantity, call) {
  if (quantity.of === "node") {
    for (let k = 0; k < data.nodeX.length; k++) {
      if (state.nets.has(data.nodeNet[k]) && state.layers.has(data.nodeLayer[k])) call(k, data.nodeX[k], data.nodeY[k], quantity.value(k), data.nodeNet[k]);
    }
    return;
  }
  const prefix = quantity.of, count = prefix === "cell" ? data.head.cells : data.branchStart.length;
  const [left, bottom, right, top] = ["Left", "Bottom", "Right", "Top"].map((side) => data[prefix + side]);
  for (let k = 0; k < count; k++) {
    const net = prefix === "cell" ? 0 : data.nodeNet[data.branchStart[k]];
    if (prefix === "branch" && !(state.nets.has(net) && state.layers.has(data.branchLayer[k]))) continue;
    call(k, (left[k] + right[k]) / 2, (bottom[k] + top[k]) / 2, quantity.value(k), net);
  }
}
