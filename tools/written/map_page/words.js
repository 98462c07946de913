// Words for what is under the pointer, for hot spots and for what was found.
const fixed = (value, places) => value.toFixed(places);

class Words {
  constructor(data) {
    this.data = data;
    this.units = data.head.units;
  }

  // A length in micrometres, where the units of the design are known.
  length(value) { return this.units ? fixed(value / this.units, 3) : String(value); }

  get lengthUnit() { return this.units ? "µm" : "units"; }

  place(x, y) { return `(${this.length(x)}, ${this.length(y)}) ${this.lengthUnit}`; }

  node(k) { return `n${this.data.nodeNumber[k]}_${this.data.nodeX[k]}_${this.data.nodeY[k]}`; }

  nodeNamed(k) {
    const { data } = this;
    return `${data.head.nets[data.nodeNet[k]].name} ${data.head.layers[data.nodeLayer[k]]} ${this.place(data.nodeX[k], data.nodeY[k])}`;
  }

  // The interval of a node and its drop, as the report has them.
  nodeLines(k) {
    const { data } = this, net = data.head.nets[data.nodeNet[k]], drop = data.nodeDrop[k];
    const shares = [net.percentOf ? `${fixed(100 * drop / net.percentOf, 4)} % of ${net.percentWords}` : "", net.limit ? `${fixed(100 * drop / net.limit, 2)} % of the limit` : ""];
    return [`${this.node(k)}: ${this.nodeNamed(k)}`, `  certified ${fixed(data.nodeLow[k] / 1e6, 6)} to ${fixed(data.nodeHigh[k] / 1e6, 6)} mV`,
      `  drop at most ${[`${fixed(drop / 1e6, 6)} mV`, ...shares].filter(Boolean).join(", ")}`];
  }

  branchNamed(k) {
    const { data } = this, net = data.head.nets[data.nodeNet[data.branchStart[k]]].name;
    const lower = data.head.layers[data.branchLayer[k]], upper = data.head.layers[data.branchUpper[k]];
    const kind = ["wire", "array of cuts", "pin of a block, which the DEF does not have"][data.branchKind[k]];
    return `R${k + 1}: ${net} ${lower === upper ? lower : `${lower} to ${upper}`}, ${kind}`;
  }

  branchLines(k) {
    const { data } = this, most = Math.max(data.branchHigh[k], -data.branchLow[k]), share = data.branchShare[k];
    const limit = data.head.limits[data.branchLimit[k]];
    return [this.branchNamed(k), `  current at most ${fixed(most / 1e6, 6)} mA, ${limit === null ? "no limit" : `limit ${limit} mA`}`
      + `${share >= 0 ? `, ${fixed(share / 1e4, 4)} %` : ""}: ${data.head.verdicts[data.branchVerdict[k]]}`,
      ...this.nodeLines(data.branchStart[k]), ...this.nodeLines(data.branchEnd[k])];
  }

  cellLines(k) {
    const { data } = this, lost = data.cellLost[k];
    const head = `${data.cellNames[k]}: a ${data.head.kinds[data.cellKind[k]]} at ${this.place(data.cellLeft[k], data.cellBottom[k])}`;
    if (!(lost >= 0)) return [head, data.head.tied ? "  tied to no nodes" : "  its nodes are not known: the map was made without --netlist"];
    return [head, `  at least ${fixed(data.cellLeast[k] / 1e6, 6)} mV between power and ground, at most ${fixed(lost / 1e6, 6)} mV lost`];
  }

  lines(of, k) { return of === "node" ? this.nodeLines(k) : of === "branch" ? this.branchLines(k) : this.cellLines(k); }
}
