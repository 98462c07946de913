// The picture on the canvas: a window onto the chip, at a scale in pixels to a unit.
const WORK = 10;
const MOST_FRAMES = 4000;
const DARK = "#1d2129";

class View {
  constructor(data, canvas) {
    Object.assign(this, { data, canvas, context: canvas.getContext("2d") });
    this.whole = data.head.box;
    this.tiles = new Tiles(this.whole);
    this.marks = [];
    this.chosen = null;
    this.isAsked = false;
  }

  // As many pixels as the screen has; the middle stays.
  resize() {
    const dots = window.devicePixelRatio || 1;
    this.canvas.width = Math.max(Math.round(this.canvas.clientWidth * dots), 1);
    this.canvas.height = Math.max(Math.round(this.canvas.clientHeight * dots), 1);
    this.dots = dots;
    this.least = this.fitting() / 4;
    if (!this.scale) this.fit();
    this.ask();
  }

  // The scale at which the whole chip is in view.
  fitting() {
    const [left, bottom, right, top] = this.whole;
    return 0.96 * Math.min(this.canvas.width / Math.max(right - left, 1), this.canvas.height / Math.max(top - bottom, 1));
  }

  fit() {
    const [left, bottom, right, top] = this.whole;
    this.goTo((left + right) / 2, (bottom + top) / 2, this.fitting());
  }

  goTo(x, y, scale) {
    Object.assign(this, { x, y, scale: Math.max(scale || this.scale, this.least || 0) });
    this.ask();
  }

  move(across, up) { this.goTo(this.x - across / this.scale, this.y + up / this.scale); }

  // Makes it so many times larger, and keeps what is at a place of the canvas there.
  zoom(times, px, py) {
    const [x, y] = this.placeOf(px, py), scale = Math.min(Math.max(this.scale * times, this.least), 4);
    this.goTo(x - (px - this.canvas.width / 2) / scale, y + (py - this.canvas.height / 2) / scale, scale);
  }

  placeOf(px, py) { return [this.x + (px - this.canvas.width / 2) / this.scale, this.y - (py - this.canvas.height / 2) / this.scale]; }

  pixelOf(x, y) { return [(x - this.x) * this.scale + this.canvas.width / 2, this.canvas.height / 2 - (y - this.y) * this.scale]; }

  window() {
    const [left, top] = this.placeOf(0, 0), [right, bottom] = this.placeOf(this.canvas.width, this.canvas.height);
    return [left, bottom, right, top];
  }

  ask() {
    if (this.isAsked) return;
    this.isAsked = true;
    requestAnimationFrame(() => { this.isAsked = false; this.draw(); });
  }

  // Draws what is there, and makes tiles that are missing as far as the time of a frame allows. Says whether all is there.
  draw() {
    const { context, canvas } = this, began = performance.now();
    context.setTransform(1, 0, 0, 1, 0, 0);
    context.fillStyle = "#ffffff";
    context.fillRect(0, 0, canvas.width, canvas.height);
    this.drawDie();
    if (this.isHot && this.heat) this.drawHeat();
    const missing = this.drawTiles(began);
    if (this.hasCells) this.drawCells();
    this.drawPads();
    this.marks.forEach((mark) => this.ring(mark.x, mark.y, DARK));
    if (this.chosen) this.ring(this.chosen.x, this.chosen.y, "#0050d0", 17);
    this.drawBar();
    this.isWhole = !missing;
    if (missing) this.ask();
    if (this.after) this.after();
    return this.isWhole;
  }

  rect([left, bottom, right, top]) {
    const [x, y] = this.pixelOf(left, top), [end, base] = this.pixelOf(right, bottom);
    return [x, y, end - x, base - y];
  }

  drawDie() {
    const { context, data } = this;
    if (!data.head.die) return;
    context.fillStyle = "#fbfbfa";
    context.fillRect(...this.rect(data.head.die));
    context.strokeStyle = "#60656f";
    context.lineWidth = 1;
    context.strokeRect(...this.rect(data.head.die));
  }

  drawHeat() {
    this.context.globalAlpha = this.isBare ? 0.9 : 0.45;
    this.context.imageSmoothingEnabled = false;
    this.context.drawImage(this.heat, ...this.rect(this.whole));
    this.context.globalAlpha = 1;
  }

  // Draws the tiles in view; says how many are missing.
  drawTiles(began) {
    const level = this.tiles.level(this.scale), span = this.tiles.span(level), [left, bottom, right, top] = this.window();
    const [first, low] = [left - this.whole[0], bottom - this.whole[1]].map((from) => Math.max(Math.floor(from / span), 0));
    const [last, high] = [Math.min(right, this.whole[2]) - this.whole[0], Math.min(top, this.whole[3]) - this.whole[1]].map((to) => Math.floor(to / span));
    let missing = 0;
    for (let row = low; row <= high; row++) {
      for (let column = first; column <= last; column++) {
        if (!this.tiles.get(level, column, row)) {
          if (performance.now() - began < WORK) this.tiles.make(level, column, row);
          else missing++;
        }
        this.drawTile(level, column, row);
      }
    }
    return missing;
  }

  // Draws a tile, or a part of a coarser one in its place.
  drawTile(level, column, row) {
    for (let up = 0; up <= level; up++) {
      const parts = 2 ** up, held = this.tiles.get(level - up, Math.floor(column / parts), Math.floor(row / parts));
      if (!held) continue;
      const span = this.tiles.span(level), left = this.whole[0] + column * span, bottom = this.whole[1] + row * span;
      const size = TILE / parts, x = (column % parts) * size, y = TILE - (row % parts + 1) * size;
      this.context.imageSmoothingEnabled = false;
      const [px, py, width, height] = this.rect([left, bottom, left + span, bottom + span]);
      const [sx, sy] = [Math.round(px), Math.round(py)];
      this.context.drawImage(held, x, y, size, size, sx, sy, Math.round(px + width) - sx, Math.round(py + height) - sy);
      return;
    }
  }

  drawCells() {
    const { data, context } = this, box = this.window();
    if (!data.head.cells || this.cells.most(...box) > MOST_FRAMES) return;
    context.strokeStyle = "#6a707a";
    context.lineWidth = 1;
    context.fillStyle = DARK;
    context.font = `${11 * this.dots}px sans-serif`;
    this.cells.within(...box, (k) => {
      const [x, y, width, height] = this.rect([data.cellLeft[k], data.cellBottom[k], data.cellRight[k], data.cellTop[k]]);
      context.strokeRect(x + 0.5, y + 0.5, width, height);
      if (width > 8 * this.dots * data.cellNames[k].length && height > 20 * this.dots) context.fillText(data.cellNames[k], x + 4, y + height / 2 + 4 * this.dots);
    });
  }

  drawPads() {
    const { data, context } = this, [left, bottom, right, top] = this.window();
    for (const k of data.pads) {
      const x = data.nodeX[k], y = data.nodeY[k];
      if (x < left || x > right || y < bottom || y > top || !this.nets.has(data.nodeNet[k])) continue;
      const [px, py] = this.pixelOf(x, y), r = 6 * this.dots;
      context.beginPath();
      [[0, -r], [r, 0], [0, r], [-r, 0]].forEach(([dx, dy], at) => (at ? context.lineTo(px + dx, py + dy) : context.moveTo(px + dx, py + dy)));
      context.closePath();
      context.fillStyle = "#fff";
      context.fill();
      context.strokeStyle = DARK;
      context.lineWidth = 1.5 * this.dots;
      context.stroke();
    }
  }

  ring(x, y, colour, size = 11) {
    const [px, py] = this.pixelOf(x, y);
    for (const [stroke, width] of [["#fff", 5], [colour, 2.2]]) {
      this.context.beginPath();
      this.context.arc(px, py, size * this.dots, 0, 2 * Math.PI);
      this.context.strokeStyle = stroke;
      this.context.lineWidth = width * this.dots;
      this.context.stroke();
    }
  }

  // A bar of a round length, in micrometres where the units are known.
  drawBar() {
    const { context, canvas, dots } = this, units = this.data.head.units || 1, most = canvas.width / 5 / this.scale / units;
    const ten = 10 ** Math.floor(Math.log10(most)), length = [5, 2, 1].map((digit) => digit * ten).find((value) => value <= most) || ten;
    const width = length * units * this.scale, x = 16 * dots, y = canvas.height - 18 * dots;
    context.fillStyle = "#ffffffd0";
    context.fillRect(x - 6 * dots, y - 22 * dots, width + 12 * dots, 32 * dots);
    context.fillStyle = DARK;
    context.fillRect(x, y, width, 3 * dots);
    context.font = `${12 * dots}px sans-serif`;
    context.fillText(`${Number(length.toPrecision(3))} ${this.data.head.units ? "µm" : "units"}`, x, y - 6 * dots);
  }
}
