// The page: what is chosen at the side, the pointer on the map, and the address, which keeps both.
const byId = (id) => document.getElementById(id);
const MOST_SPOTS = 50;
const FIELDS = 48;

class Page {
  constructor(data) {
    this.data = data;
    this.words = new Words(data);
    this.quantities = quantities(data);
    this.view = new View(data, byId("map"));
    this.branches = this.boxes("branch");
    this.pieces = this.boxes("piece");
    this.cells = this.view.cells = this.boxes("cell");
    const layers = data.head.layers.map((_, k) => k), nets = data.head.nets.map((_, k) => k);
    this.state = { quantity: "drop", top: null, nets: new Set(nets), layers: new Set(layers), heat: true, wires: true, cells: true };
    this.fillSide();
    this.readAddress();
    this.listen();
    this.view.resize();
    this.refresh();
    this.view.after = () => this.writeAddress();
  }

  boxes(name) {
    const { data } = this, side = (word) => data[name + word] || new Int32Array(0);
    return new Boxes(side("Left"), side("Bottom"), side("Right"), side("Top"), data.head.box);
  }

  get quantity() { return this.quantities[this.state.quantity]; }

  // Works out colours, heat, hot spots and legend anew.
  refresh() {
    const { data, state, quantity, view } = this, { stops, bare, beyond } = data.head;
    const all = { nets: new Set(data.head.nets.keys()), layers: new Set(data.head.layers.keys()) };
    let most = 0;
    eachShown(data, all, quantity, (k, x, y, value) => { if (value > most) most = value; });
    this.scale = new Scale(state.top || most, stops);
    const codes = codesOf(data, state, quantity, this.scale), palette = this.scale.palette(bare, beyond);
    this.codes = codes;
    const layers = quantity.of === "cell" ? [{ boxes: this.cells, code: codes.cells, least: 1 }] : [];
    if (state.wires && quantity.of !== "cell") {
      layers.push({ boxes: this.pieces, code: codes.pieces, least: 1 }, { boxes: this.branches, code: codes.branches, least: 1.6 });
    }
    view.tiles.show(layers, palette);
    Object.assign(view, { isHot: state.heat, isBare: !state.wires, hasCells: state.cells, nets: state.nets });
    view.heat = heatOf(data, state, quantity, this.scale, data.head.box, palette);
    this.findSpots();
    this.fillLegend();
    this.showState();
    view.ask();
  }

  // The worst of each field of the chip, without the neighbours of a worse one of its net.
  findSpots() {
    const { data, state, quantity } = this, [left, bottom, right, top] = data.head.box, side = Math.max(right - left, top - bottom, 1) / FIELDS;
    const worst = new Map();
    eachShown(data, state, quantity, (k, x, y, value, net) => {
      const column = Math.floor((x - left) / side), row = Math.floor((y - bottom) / side), at = (net * 64 + column) * 64 + row, held = worst.get(at);
      if (value >= 0 && (!held || value > held.value)) worst.set(at, { k, x, y, value, net, column, row });
    });
    const ranked = [...worst.values()].sort((one, other) => other.value - one.value || one.k - other.k), spots = [];
    for (const spot of ranked) {
      const isNear = spots.some((held) => held.net === spot.net && Math.abs(held.column - spot.column) < 3 && Math.abs(held.row - spot.row) < 3);
      if (!isNear) spots.push(spot);
      if (spots.length === MOST_SPOTS) break;
    }
    this.spots = spots;
    this.view.marks = [...state.nets].map((net) => ranked.find((spot) => spot.net === net)).filter(Boolean);
    this.listSpots();
  }

  // Goes to a node, branch or cell, so near that it is seen.
  choose(of, k, x, y) {
    const { view, data } = this, [left, bottom, right, top] = data.head.box;
    view.chosen = { of, k, x, y };
    view.goTo(x, y, Math.max(view.scale, view.canvas.width * 12 / Math.max(right - left, top - bottom, 1)));
    this.say(this.words.lines(of, k).join("\n"), view.canvas.clientWidth / 2 + 24, view.canvas.clientHeight / 2 + 16);
  }

  say(text, x, y) {
    const box = byId("hover");
    box.hidden = !text;
    box.textContent = text;
    box.style.left = `${Math.max(Math.min(x, this.view.canvas.clientWidth - box.offsetWidth - 8), 0)}px`;
    box.style.top = `${Math.max(Math.min(y, this.view.canvas.clientHeight - box.offsetHeight - 8), 0)}px`;
  }

  // What is under a place of the canvas: the worst branch that is shown there, or the cell.
  under(px, py) {
    const { view, data } = this, more = 4 * view.dots / view.scale, [x, y] = view.placeOf(px, py);
    let found = null;
    const isAt = (name, k) => data[`${name}Left`][k] - more <= x && x <= data[`${name}Right`][k] + more && data[`${name}Bottom`][k] - more <= y && y <= data[`${name}Top`][k] + more;
    const look = (name, boxes, code) => boxes.within(x - more, y - more, x + more, y + more, (k) => {
      if (code(k) && isAt(name, k) && (!found || code(k) > found.code)) found = { of: name, k, code: code(k) };
    });
    if (this.state.wires && this.quantity.of !== "cell") look("branch", this.branches, (k) => this.codes.branches[k]);
    if (!found && (this.state.cells || this.quantity.of === "cell")) look("cell", this.cells, () => 1);
    return found;
  }
}
