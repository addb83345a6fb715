#!/usr/bin/env -S node --experimental-websocket
// Follows a channel through losses of its connection, by node's own WebSocket (node 20 or later) and no package.
//
//     examples/client.js ws://127.0.0.1:8000 news
//
// It does what client.py does, and prints the same: a line for each publication, its offset and its data, and on standard error how
// each subscription began and that it was away: no server, a proxy that answers 502 and a handshake that is cut short are one to it,
// since node tells no more. A connection of which nothing comes for 35 seconds is given up. It ends if the server tells it not to
// come back.
"use strict";

// So many publications fit one reply, 1,048,576 bytes, however long they are: each came in a frame of 65,536 bytes at most.
const PAGE = 15;
// How many seconds a connection may take to open, and may be silent: a ping comes every 25.
const OPENING = 10, SILENT = 35;

const say = text => process.stderr.write(`${text}\n`);

function fail(text) {
  say(text);
  process.exit(1);
}

// What a client knows of one channel: the epoch of its stream, and the offset of the last publication that it has.
class Follower {
  constructor(server, channel) {
    Object.assign(this, { server, channel, epoch: null, offset: 0, asks: false, behind: false, delay: 100 });
  }

  // One connection, until it is lost; then the next one.
  connect() {
    let isOver = false, patience = null;
    const socket = new WebSocket(this.server);
    const lost = how => {
      if (isOver) return;
      isOver = true;
      clearTimeout(patience);
      this.asks = false;
      say(`away: ${how}`);
      // Half of it more or less: many clients of a server that was restarted don't all come at one time.
      setTimeout(() => this.connect(), this.delay * (0.5 + Math.random()));
      this.delay = Math.min(this.delay * 2, 5000);
    };
    const waits = (seconds, what) => {
      clearTimeout(patience);
      patience = setTimeout(() => { lost(`${what} for ${seconds} seconds`); socket.close(); }, seconds * 1000);
    };
    waits(OPENING, "no answer to the handshake");
    this.socket = socket;
    this.lastId = 0;           // ids of commands count from 1 on each connection
    this.waiting = new Map();  // what to do with the answer to each command
    socket.onopen = () => {
      if (isOver) return;
      waits(SILENT, "nothing came");
      this.ask({ connect: {} }, () => {
        if (this.behind) this.catchUp(0);
        else this.subscribe();
      });
    };
    socket.onmessage = event => {
      if (isOver) return;
      waits(SILENT, "nothing came");
      for (const line of event.data.split("\n")) if (line) this.heard(JSON.parse(line));
    };
    socket.onclose = event => {
      if (isOver) return;
      if (event.code >= 3500 && event.code < 4000) fail(`closed with ${event.code} ${event.reason}`);
      this.behind = this.behind || (this.asks && event.code === 3008);
      lost(`closed with ${event.code} ${event.reason}`.trimEnd());
    };
    // Node 20 says no `close` behind the error of a connection that it couldn't open.
    socket.onerror = event => setTimeout(() => lost(event.message || event.error?.message || "the connection can't be opened"), 10);
  }

  ask(command, answer) {
    this.lastId += 1;
    this.waiting.set(this.lastId, answer);
    this.socket.send(JSON.stringify({ id: this.lastId, ...command }));
  }

  heard(message) {
    const push = message.push?.channel === this.channel ? message.push : {};
    if (push.pub) this.got(push.pub);
    else if (push.unsubscribe) this.subscribe();   // something was missed: ask again from the position
    else if (message.id) {
      const answer = this.waiting.get(message.id);
      this.waiting.delete(message.id);
      answer?.(message);
    } else if (Object.keys(message).length === 0) this.socket.send("{}");   // a ping is answered by a pong
  }

  subscribe() {
    const request = { channel: this.channel };
    if (this.epoch !== null) Object.assign(request, { recover: true, epoch: this.epoch, offset: this.offset });
    this.asks = this.epoch !== null;
    this.ask({ subscribe: request }, reply => {
      this.asks = false;
      if (reply.error?.temporary) return this.socket.close();
      if (reply.error) fail(`refused: ${JSON.stringify(reply.error)}`);
      this.subscribed(reply.subscribe);
    });
  }

  subscribed({ recovered = false, was_recovering = false, epoch, offset = 0, publications = [] }) {
    say(`${recovered ? "recovered" : was_recovering ? "lost" : "fresh"} at epoch ${epoch} offset ${offset}`);
    this.delay = 100;
    this.epoch = epoch;
    if (!recovered) this.offset = offset;
    for (const publication of publications) this.got(publication);
  }

  // Reads what was missed, page by page, up to the top of the stream, as far as it is held without a gap, and subscribes from there.
  catchUp(missed) {
    const since = { epoch: this.epoch, offset: this.offset };
    this.ask({ history: { channel: this.channel, limit: PAGE, since } }, reply => {
      if (reply.error && reply.error.code !== 112) {
        say(`lost: ${reply.error.message}, so what was missed can't be read`);
        this.epoch = null;
      }
      const page = reply.history?.publications || [];
      // If the next one is gone, or of another epoch, the reply to the subscribe says so.
      const follows = page.length > 0 && page[0].offset === this.offset + 1;
      if (follows) for (const publication of page) this.got(publication);
      const all = missed + (follows ? page.length : 0);
      if (follows && this.offset < reply.history.offset) return this.catchUp(all);
      say(`${all} read by history`);
      this.behind = false;
      this.subscribe();
    });
  }

  got({ offset, data }) {
    this.offset = offset;
    console.log(`${offset} ${JSON.stringify(data)}`);
  }
}

const words = process.argv.slice(2);
if (["-h", "--help"].includes(words[0])) {
  console.log("client.js ws://127.0.0.1:8000 news follows a channel through losses of its connection, and prints a line for each\n" +
    "publication: its offset and its data. On standard error it says how each subscription began, and that it was away.");
  process.exit();
}
if (words.length !== 2 || !/^wss?:\/\//.test(words[0])) fail("give a server and a channel: client.js ws://127.0.0.1:8000 news");
if (typeof WebSocket === "undefined") fail("this node has no WebSocket: node 20 has it by --experimental-websocket, node 22 as it is");
try {
  new Follower(...words).connect();
} catch (error) {
  fail(error.message);   // no address
}
