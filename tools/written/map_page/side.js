// The side of the page: choices, legend, hot spots and what was found.
const MOST_FOUND = 30;

function row(list, words, small, click) {
  const item = document.createElement("li"), below = document.createElement("small");
  item.textContent = words;
  below.textContent = small;
  item.append(below);
  item.addEventListener("click", () => {
    for (const other of document.querySelectorAll("li.chosen")) other.classList.remove("chosen");
    item.classList.add("chosen");
    click();
  });
  list.append(item);
}

function box(parent, words, isOn, change) {
  const label = document.createElement("label"), input = document.createElement("input");
  input.type = "checkbox";
  input.checked = isOn;
  input.addEventListener("change", () => change(input.checked));
  label.append(input, ` ${words}`);
  parent.append(label);
  return input;
}

Object.assign(Page.prototype, {
  fillSide() {
    const { data, state } = this;
    byId("title").textContent = data.head.title;
    byId("counts").textContent = data.head.counts;
    for (const [name, held] of Object.entries(this.quantities)) byId("quantity").append(new Option(held.words, name));
    byId("quantity").addEventListener("change", () => { Object.assign(state, { quantity: byId("quantity").value, top: null }); this.refresh(); });
    byId("top").addEventListener("change", () => { state.top = Number(byId("top").value) > 0 ? Number(byId("top").value) : null; this.refresh(); });
    const toggle = (set, k) => (isOn) => { if (isOn) set.add(k); else set.delete(k); this.refresh(); };
    this.netBoxes = data.head.nets.map((net, k) => box(byId("nets"), net.words, true, toggle(state.nets, k)));
    this.layerBoxes = data.head.layers.map((layer, k) => box(byId("layers"), layer, true, toggle(state.layers, k)));
    for (const name of ["heat", "wires", "cells"]) byId(name).addEventListener("change", () => { state[name] = byId(name).checked; this.refresh(); });
    byId("all").addEventListener("click", () => { this.view.fit(); this.say("", 0, 0); });
    const { canvas } = this.view;
    byId("in").addEventListener("click", () => this.view.zoom(2, canvas.width / 2, canvas.height / 2));
    byId("out").addEventListener("click", () => this.view.zoom(0.5, canvas.width / 2, canvas.height / 2));
    byId("find").addEventListener("input", () => this.search(byId("find").value.trim()));
  },

  // The choices at the side say what the state is.
  showState() {
    const { state } = this;
    byId("quantity").value = state.quantity;
    byId("top").value = Number((this.scale.step * this.scale.count).toPrecision(6));
    byId("unit").textContent = this.quantity.unit;
    for (const name of ["heat", "wires", "cells"]) byId(name).checked = state[name];
    this.netBoxes.forEach((input, k) => { input.checked = state.nets.has(k); });
    this.layerBoxes.forEach((input, k) => { input.checked = state.layers.has(k); });
  },

  fillLegend() {
    const { scale, quantity } = this, legend = byId("legend"), lines = [];
    for (let band = scale.count - 1; band >= 0; band--) {
      const [from, to] = [band, band + 1].map((k) => Number((k * scale.step).toPrecision(6)));
      lines.push([css(scale.colours[band]), `${from} to ${to}${band === scale.count - 1 && this.state.top ? " and above" : ""}`]);
    }
    if (this.codes.branches.includes(scale.beyond)) lines.unshift([css(this.data.head.beyond), quantity.of === "node" ? "may exceed the drop limit" : "may exceed its limit"]);
    lines.push([css(this.data.head.bare), quantity.of === "cell" ? "a cell that is tied to no nodes" : quantity.of === "branch" ? "no limit, or metal without current" : "metal behind the last node"]);
    legend.replaceChildren(...lines.flatMap(([colour, text]) => {
      const swatch = document.createElement("span"), words = document.createElement("span");
      swatch.style.background = colour;
      words.textContent = text;
      return [swatch, words];
    }));
    byId("says").textContent = this.data.head.says[this.quantity.of];
  },

  listSpots() {
    const list = byId("spots"), { words, quantity, data } = this;
    list.replaceChildren();
    byId("spotwords").textContent = this.spots.length ? "the worst of each field of 1/48 of the chip; click to go there" : "none";
    for (const spot of this.spots) {
      const named = quantity.of === "node" ? [words.node(spot.k), words.nodeNamed(spot.k)]
        : quantity.of === "branch" ? [`R${spot.k + 1}`, words.branchNamed(spot.k).replace(/^R\d+: /, "") + " " + words.place(spot.x, spot.y)]
          : [data.cellNames[spot.k], `${data.head.kinds[data.cellKind[spot.k]]} ${words.place(spot.x, spot.y)}`];
      row(list, `${spot.value.toFixed(quantity.unit === "mV" ? 6 : 4)} ${quantity.unit}  ${named[0]}`, named[1], () => this.choose(quantity.of, spot.k, spot.x, spot.y));
    }
  },

  // Cells by a part of the name, nodes and branches by the whole name.
  search(text) {
    const { data, words } = this, list = byId("found");
    list.replaceChildren();
    if (!text) return;
    const middle = (name, k) => [(data[`${name}Left`][k] + data[`${name}Right`][k]) / 2, (data[`${name}Bottom`][k] + data[`${name}Top`][k]) / 2];
    const branch = /^[rR]([1-9]\d*)$/.exec(text), node = /^n(\d+)_(-?\d+)_(-?\d+)$/.exec(text);
    if (branch && branch[1] <= data.branchStart.length) row(list, text, words.branchNamed(branch[1] - 1), () => this.choose("branch", branch[1] - 1, ...middle("branch", branch[1] - 1)));
    if (node) {
      const k = data.nodeX.findIndex((x, at) => x === Number(node[2]) && data.nodeY[at] === Number(node[3]) && data.nodeNumber[at] === Number(node[1]));
      if (k >= 0) row(list, text, words.nodeNamed(k), () => this.choose("node", k, data.nodeX[k], data.nodeY[k]));
    }
    for (const k of this.cellsNamed(text)) row(list, data.cellNames[k], words.cellLines(k).slice(-1)[0].trim(), () => this.choose("cell", k, ...middle("cell", k)));
    if (!list.children.length) list.textContent = "nothing has this name";
  },

  cellsNamed(text) {
    const whole = [], begins = [], has = [];
    this.data.cellNames.forEach((name, k) => {
      if (name === text) whole.push(k);
      else if (name.startsWith(text)) begins.push(k);
      else if (has.length < MOST_FOUND && name.includes(text)) has.push(k);
    });
    return [...whole, ...begins, ...has].slice(0, MOST_FOUND);
  },
});
