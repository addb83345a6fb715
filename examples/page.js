// Runs the script of chat.html without a browser, and prints each row that its room gets as JSON: the row's class and its cells, who
// said it, the text, and the offset.
//
//     node --experimental-websocket examples/page.js ws://127.0.0.1:8000 news
"use strict";
const fs = require("fs");
const path = require("path");
const vm = require("vm");

const script = fs.readFileSync(path.join(__dirname, "chat.html"), "utf8").match(/<script>([^]*?)<\/script>/)[1];
const [server, channel] = process.argv.slice(2);

// So much of an element as the script uses.
class Element {
  constructor() {
    this.value = "";
    this.textContent = "";
    this.className = "";
    this.children = [];
    this.parentNode = null;
    this.scrollHeight = this.scrollTop = this.clientHeight = 0;
  }
  append(...more) {
    this.children.push(...more);
    for (const child of more) child.parentNode = this;
  }
  insertBefore(line) {
    console.log(JSON.stringify([line.className, ...line.children.map(cell => cell.textContent)]));
  }
  remove() {
    this.parentNode = null;
  }
  contains() {
    return false;
  }
}

// A browser says `close` behind the error of a connection that it couldn't open; node 20 doesn't.
class Socket extends WebSocket {
  constructor(address) {
    super(address);
    let isClosed = false;
    this.addEventListener("close", () => { isClosed = true; });
    this.addEventListener("error", () => setTimeout(() => {
      if (!isClosed) this.dispatchEvent(Object.assign(new Event("close"), { code: 1006, reason: "" }));
    }, 10));
  }
}

const elements = new Map();
const document = {
  getElementById(id) {
    if (!elements.has(id)) elements.set(id, new Element());
    return elements.get(id);
  },
  createElement: () => new Element(),
};
const location = { search: `?${new URLSearchParams({ server, channel })}`, protocol: "file:" };
document.getElementById("channel").value = channel;
vm.runInNewContext(script, { document, location, URLSearchParams, WebSocket: Socket, setTimeout, clearTimeout, crypto, TextEncoder });
