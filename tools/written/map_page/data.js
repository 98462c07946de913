// What the file holds: the head, and columns of numbers that are packed as base64 of zlib.
const COLUMNS = { i4: Int32Array, u4: Uint32Array, u2: Uint16Array, u1: Uint8Array, f8: Float64Array };

async function unpacked(element) {
  const text = atob(element.textContent);
  const bytes = new Uint8Array(text.length);
  for (let k = 0; k < text.length; k++) bytes[k] = text.charCodeAt(k);
  element.remove();
  const stream = new Blob([bytes]).stream().pipeThrough(new DecompressionStream("deflate"));
  return new Response(stream).arrayBuffer();
}

async function readData() {
  const data = { head: JSON.parse(document.getElementById("head").textContent) };
  for (const element of document.querySelectorAll("script[data-kind]")) {
    const buffer = await unpacked(element);
    const kind = element.dataset.kind;
    data[element.id] = kind === "text" ? new TextDecoder().decode(buffer) : new COLUMNS[kind](buffer);
  }
  data.cellNames = data.cellNames ? data.cellNames.split("\n") : [];
  return data;
}

// Boxes in units of the design, found by place: a grid of fields, each with the numbers of the boxes that meet it.
class Boxes {
  constructor(left, bottom, right, top, whole) {
    Object.assign(this, { left, bottom, right, top, count: left.length, whole });
    const across = Math.max(whole[2] - whole[0], 1), up = Math.max(whole[3] - whole[1], 1);
    const fields = Math.max(Math.min(this.count / 12, 1 << 18), 1);
    this.columns = Math.max(Math.min(Math.round(Math.sqrt(fields * across / up)), 2048), 1);
    this.rows = Math.max(Math.min(Math.round(fields / this.columns), 2048), 1);
    this.wide = across / this.columns;
    this.high = up / this.rows;
    this.fill();
  }

  column(x) { return Math.min(Math.max(Math.floor((x - this.whole[0]) / this.wide), 0), this.columns - 1); }

  row(y) { return Math.min(Math.max(Math.floor((y - this.whole[1]) / this.high), 0), this.rows - 1); }

  // Calls with each field that a box meets.
  fields(left, bottom, right, top, call) {
    const first = this.column(left), last = this.column(right), end = this.row(top);
    for (let row = this.row(bottom); row <= end; row++) {
      for (let column = first; column <= last; column++) call(row * this.columns + column);
    }
  }

  fill() {
    const starts = new Uint32Array(this.columns * this.rows + 1);
    for (let k = 0; k < this.count; k++) this.fields(this.left[k], this.bottom[k], this.right[k], this.top[k], (at) => { starts[at + 1]++; });
    for (let at = 1; at < starts.length; at++) starts[at] += starts[at - 1];
    const numbers = new Uint32Array(starts[starts.length - 1]), next = starts.slice();
    for (let k = 0; k < this.count; k++) this.fields(this.left[k], this.bottom[k], this.right[k], this.top[k], (at) => { numbers[next[at]++] = k; });
    Object.assign(this, { starts, numbers });
  }

  // Calls once with each box that may meet a window: in the first of the window's fields that it meets.
  within(left, bottom, right, top, call) {
    const first = this.column(left), last = this.column(right), base = this.row(bottom), end = this.row(top);
    for (let row = base; row <= end; row++) {
      for (let column = first; column <= last; column++) {
        const at = row * this.columns + column;
        for (let place = this.starts[at]; place < this.starts[at + 1]; place++) {
          const k = this.numbers[place];
          if (column === Math.max(this.column(this.left[k]), first) && row === Math.max(this.row(this.bottom[k]), base)) call(k);
        }
      }
    }
  }

  // How many may meet a window, at most.
  most(left, bottom, right, top) {
    let sum = 0;
    this.fields(left, bottom, right, top, (at) => { sum += this.starts[at + 1] - this.starts[at]; });
    return sum;
  }
}
