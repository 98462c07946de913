readData().then((data) => {
  byId("wait").hidden = true;
  window.page = new Page(data);
}).catch((fault) => { byId("wait").textContent = `this browser cannot read the map: ${fault}`; });
