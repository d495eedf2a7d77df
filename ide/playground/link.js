// The socket of the page: what is asked of the two servers, and what they send of their own accord.

export class Link {
  constructor(onMessage, onClose) {
    this.waiting = new Map();
    this.number = 1;
    const address = new URL("socket", location.href);
    address.protocol = "ws:";
    this.socket = new WebSocket(address);
    this.opened = new Promise((done) => this.socket.addEventListener("open", done));
    this.socket.addEventListener("message", (event) => this.receive(JSON.parse(event.data), onMessage));
    this.socket.addEventListener("close", (event) => {
      for (const { refuse } of this.waiting.values()) refuse(new Error("closed"));
      this.waiting.clear();
      onClose(event.reason || "the connection has ended");
    });
  }

  receive(envelope, onMessage) {
    const message = envelope.message;
    const key = `${envelope.from} ${message?.id}`;
    const waiting = message && !message.method && this.waiting.get(key);
    if (!waiting) return onMessage(envelope);
    this.waiting.delete(key);
    if (message.error) waiting.refuse(new Error(message.error.message));
    else waiting.answer(message.result);
  }

  // Nobody answers any more what a server was asked.
  drop(server) {
    for (const [key, { refuse }] of this.waiting) {
      if (!key.startsWith(`${server} `)) continue;
      this.waiting.delete(key);
      refuse(new Error("the server has ended"));
    }
  }

  send(envelope) {
    if (this.socket.readyState === WebSocket.OPEN) this.socket.send(JSON.stringify(envelope));
  }

  tell(what) {
    this.send({ to: "page", ...what });
  }

  notify(server, method, params) {
    this.send({ to: server, message: { jsonrpc: "2.0", method, params } });
  }

  request(server, method, params) {
    const id = this.number++;
    return new Promise((answer, refuse) => {
      this.waiting.set(`${server} ${id}`, { answer, refuse });
      this.send({ to: server, message: { jsonrpc: "2.0", id, method, params } });
    });
  }
}

// Calls a function once nothing has asked for it for some milliseconds.
export function later(milliseconds, work) {
  let timer = 0;
  return () => {
    clearTimeout(timer);
    timer = setTimeout(work, milliseconds);
  };
}
