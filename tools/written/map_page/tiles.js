// Pictures of squares of the chip at powers of two of the scale. In each cell of a picture the worst that lies in it is seen, in whatever order it comes.
const TILE = 256;
const MOST_TILES = 500;

class Tiles {
  constructor(whole) {
    this.whole = whole;
    this.base = TILE / Math.max(whole[2] - whole[0], whole[3] - whole[1], 1);
    this.held = new Map();
    this.layers = [];
  }

  // Shows other codes: what was drawn is dropped. Of each layer boxes, codes, and how many cells a box is wide at least.
  show(layers, palette) {
    Object.assign(this, { layers, palette });
    this.held.clear();
  }

  level(scale) { return Math.max(Math.ceil(Math.log2(scale / this.base) - 1e-9), 0); }

  // How wide a tile of a level is, in units.
  span(level) { return TILE / (this.base * 2 ** level); }

  get(level, column, row) { return this.held.get(`${level}/${column}/${row}`); }

  // Draws a tile.
  make(level, column, row) {
    const span = this.span(level), left = this.whole[0] + column * span, bottom = this.whole[1] + row * span;
    const codes = new Uint8Array(TILE * TILE);
    for (const layer of this.layers) paint(codes, layer, left, bottom, span);
    const canvas = new OffscreenCanvas(TILE, TILE), context = canvas.getContext("2d"), image = context.createImageData(TILE, TILE);
    const cells = new Uint32Array(image.data.buffer);
    for (let k = 0; k < codes.length; k++) cells[k] = this.palette[codes[k]];
    context.putImageData(image, 0, 0);
    this.keep(`${level}/${column}/${row}`, canvas);
  }

  keep(name, canvas) {
    if (this.held.size >= MOST_TILES) this.held.delete(this.held.keys().next().value);
    this.held.set(name, canvas);
  }
}

// Paints the boxes of a layer that meet a square.
function paint(codes, { boxes, code, least }, left, bottom, span) {
  const scale = TILE / span, more = span * least / TILE;
  boxes.within(left - more, bottom - more, left + span + more, bottom + span + more, (k) => {
    if (code[k]) paintBox(codes, code[k], spanOf((boxes.left[k] - left) * scale, (boxes.right[k] - left) * scale, least),
      spanOf(TILE - (boxes.top[k] - bottom) * scale, TILE - (boxes.bottom[k] - bottom) * scale, least));
  });
}

// The cells from one place to another: at least so many, and none outside.
function spanOf(from, to, least) {
  const lack = Math.max(least - (to - from), 0) / 2;
  const first = Math.floor(from - lack + 0.5), last = Math.max(Math.floor(to + lack + 0.5), first + 1);
  return [Math.max(first, 0), Math.min(last, TILE)];
}

function paintBox(codes, code, [first, last], [upper, lower]) {
  for (let row = upper; row < lower; row++) {
    for (let at = row * TILE + first, end = row * TILE + last; at < end; at++) if (codes[at] < code) codes[at] = code;
  }
}

// A picture of fields over the chip, each with the worst value in it, or that of the nearest field that has one.
function heatOf(data, state, quantity, scale, whole, colours) {
  const across = whole[2] - whole[0], up = whole[3] - whole[1], fields = Math.min(Math.max(Math.sqrt(data.nodeX.length / 6), 6), 160);
  const most = Math.max(across, up, 1), columns = Math.max(Math.round(across / most * fields), 1), rows = Math.max(Math.round(up / most * fields), 1);
  const wide = Math.max(across, 1) / columns, high = Math.max(up, 1) / rows, worst = new Float64Array(columns * rows).fill(-1);
  eachShown(data, state, quantity, (k, x, y, value) => {
    const column = Math.min(Math.floor((x - whole[0]) / wide), columns - 1), at = Math.min(Math.floor((whole[3] - y) / high), rows - 1) * columns + column;
    if (value > worst[at]) worst[at] = value;
  });
  spread(worst, columns, rows);
  const canvas = new OffscreenCanvas(columns, rows), context = canvas.getContext("2d"), image = context.createImageData(columns, rows);
  const cells = new Uint32Array(image.data.buffer);
  for (let at = 0; at < cells.length; at++) cells[at] = worst[at] < 0 ? 0 : colours[scale.code(worst[at])];
  context.putImageData(image, 0, 0);
  return canvas;
}

// Gives each field without a value that of the nearest one, step by step.
function spread(worst, columns, rows) {
  let edge = [];
  for (let at = 0; at < worst.length; at++) if (worst[at] >= 0) edge.push(at);
  while (edge.length) {
    const next = [];
    for (const at of edge) {
      const column = at % columns, row = (at - column) / columns;
      for (const [dx, dy] of [[1, 0], [-1, 0], [0, 1], [0, -1]]) {
        const x = column + dx, y = row + dy, to = y * columns + x;
        if (x < 0 || y < 0 || x >= columns || y >= rows || worst[to] >= 0) continue;
        worst[to] = worst[at];
        next.push(to);
      }
    }
    edge = next;
  }
}
