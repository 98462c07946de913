// The pointer and the keys on the map, and the address, by which a view can be handed on.
Object.assign(Page.prototype, {
  listen() {
    const { view } = this, { canvas } = view;
    new ResizeObserver(() => view.resize()).observe(canvas);
    const at = (event) => [event.offsetX * view.dots, event.offsetY * view.dots];
    let held = null;
    canvas.addEventListener("pointerdown", (event) => { held = at(event); canvas.setPointerCapture(event.pointerId); canvas.style.cursor = "grabbing"; });
    canvas.addEventListener("pointerup", () => { held = null; canvas.style.cursor = ""; });
    canvas.addEventListener("pointermove", (event) => {
      const now = at(event);
      if (held) {
        view.move(now[0] - held[0], now[1] - held[1]);
        held = now;
        return;
      }
      const found = this.under(...now);
      this.say(found ? this.words.lines(found.of, found.k).join("\n") : "", event.offsetX + 14, event.offsetY + 14);
    });
    canvas.addEventListener("pointerleave", () => this.say("", 0, 0));
    canvas.addEventListener("wheel", (event) => { event.preventDefault(); view.zoom(Math.exp(-event.deltaY / 400), ...at(event)); }, { passive: false });
    canvas.addEventListener("dblclick", (event) => view.zoom(2, ...at(event)));
    canvas.addEventListener("keydown", (event) => this.key(event));
    window.addEventListener("hashchange", () => { if (location.hash !== this.address) { this.readAddress(); this.refresh(); } });
  },

  key(event) {
    const { view } = this, { width, height } = view.canvas, step = width / 8;
    const moves = { ArrowLeft: [step, 0], ArrowRight: [-step, 0], ArrowUp: [0, step], ArrowDown: [0, -step] };
    if (moves[event.key]) view.move(...moves[event.key]);
    else if (event.key === "+" || event.key === "=") view.zoom(2, width / 2, height / 2);
    else if (event.key === "-") view.zoom(0.5, width / 2, height / 2);
    else if (event.key === "0") view.fit();
    else return;
    event.preventDefault();
  },

  // The address has what is shown, the middle in units, and the scale in pixels to a unit.
  readAddress() {
    const words = new URLSearchParams(location.hash.slice(1)), { state, view } = this;
    const set = (name, count) => new Set((words.get(name) || "").split(",").filter(Boolean).map(Number).filter((k) => k >= 0 && k < count));
    if (this.quantities[words.get("show")]) state.quantity = words.get("show");
    if (words.has("top")) state.top = Number(words.get("top")) || null;
    if (words.has("nets")) state.nets = set("nets", this.data.head.nets.length);
    if (words.has("layers")) state.layers = set("layers", this.data.head.layers.length);
    for (const name of ["heat", "wires", "cells"]) if (words.has(name)) state[name] = words.get(name) !== "0";
    const [x, y, scale] = ["x", "y", "scale"].map((name) => Number(words.get(name)));
    if (words.has("x") && scale > 0 && Number.isFinite(x + y)) view.goTo(x, y, scale);
  },

  writeAddress() {
    const { state, view } = this, flag = (name) => `${name}=${state[name] ? 1 : 0}`;
    const words = [`show=${state.quantity}`, `nets=${[...state.nets].sort((a, b) => a - b)}`, `layers=${[...state.layers].sort((a, b) => a - b)}`, flag("heat"), flag("wires"), flag("cells"),
      `x=${Math.round(view.x)}`, `y=${Math.round(view.y)}`, `scale=${view.scale.toPrecision(6)}`];
    if (state.top) words.push(`top=${state.top}`);
    this.address = `#${words.join("&")}`;
    clearTimeout(this.timer);
    this.timer = setTimeout(() => history.replaceState(null, "", this.address), 200);
  },
});
