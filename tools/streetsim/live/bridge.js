// The bridge that served the page: it has the traffic, does what the page asks, and tells what the page shows.

const PAGE = crypto.randomUUID(); // by this name the page goes at the bridge

// An answer; an error that tells why where there is none.
async function answered(verb, body = "") {
  const answer = await fetch(`${PAGE}/${verb}`, { method: "POST", body });
  if (answer.ok) return answer;
  const told = answer.headers.get("Content-Type") === "application/json" ? (await answer.json()).fault : `the bridge answers ${answer.status}`;
  throw Object.assign(new Error(told), { isTaken: answer.status === 409 });
}

// What a page knows: both traffics, as it is (now) and as it was without changes, and the changes.
class Session {
  constructor(data) {
    this.data = data; this.givers = new Set(data.giving); // junctions without a light, where vehicles give way by signals that nobody sees
    this.now = new World(data); this.was = null; this.watched = null;
    addEventListener("pagehide", () => navigator.sendBeacon(`${PAGE}/leave`, ""));
  }

  get clock() { return this.now.clock; }
  get plans() { return this.now.plans; }

  // Takes a message: the length of JSON, JSON, and the vehicles of both traffics. Gives the JSON.
  take(bytes) {
    const size = new DataView(bytes).getUint32(0, true), told = JSON.parse(new TextDecoder().decode(new Uint8Array(bytes, 4, size)));
    let from = 4 + size;
    this.was = told.worlds.length < 2 ? null : this.was ?? new World(this.data);
    for (const [i, one] of told.worlds.entries()) {
      [this.now, this.was][i].take(one, new Int32Array(bytes, from, one.bytes / 4));
      from += one.bytes;
    }
    Object.assign(this, { changes: told.changes, isChanged: told.changed, wanted: told.wanted, log: told.log, gain: told.gain, gainText: told.said });
    return told;
  }

  // Has the bridge do something by its verb, and takes what it tells.
  async act(verb, given) { return this.take(await (await answered(verb, given && JSON.stringify(given))).arrayBuffer()); }
  async watch(node) { if (node !== this.watched) { this.watched = node; await this.act("watch", { node }); } }

  // Asks what changes nothing.
  async ask(...commands) { return (await answered("ask", JSON.stringify({ commands }))).json(); }
  // The session as a file of lines, which streetsim does again; of the traffic as it was where which is 1.
  async text(which = 0) { return (await answered("text", JSON.stringify({ which }))).text(); }
}
