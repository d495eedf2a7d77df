// What was typed, kept in the browser: for this tab, and of other tabs what they had last.

const STATE = "lrls state";
const TAB = "lrls tab ";
const NAME = "lrls name";
// So many other tabs are kept.
const MOST = 5;

const read = (storage, key) => {
  try {
    return JSON.parse(storage.getItem(key));
  } catch {
    return null;
  }
};

export class Store {
  constructor() {
    this.key = TAB + (sessionStorage.getItem(NAME) ?? crypto.randomUUID());
    sessionStorage.setItem(NAME, this.key.slice(TAB.length));
    for (const { key } of this.others().slice(MOST)) localStorage.removeItem(key);
  }

  // What this tab had, before it was loaded again.
  last() {
    return read(sessionStorage, STATE);
  }

  // What other tabs had, the newest first.
  others() {
    const keys = Object.keys(localStorage).filter((key) => key.startsWith(TAB) && key !== this.key);
    const found = keys.map((key) => ({ key, ...read(localStorage, key) }));
    return found.sort((one, other) => other.at - one.at);
  }

  // Keeps a state. Says whether the browser has room for it in this tab.
  keep(state) {
    const kept = JSON.stringify({ ...state, at: Date.now() });
    const isKept = this.put(sessionStorage, STATE, kept);
    while (!this.put(localStorage, this.key, kept)) {
      const oldest = this.others().at(-1);
      if (!oldest) break;
      localStorage.removeItem(oldest.key);
    }
    return isKept;
  }

  put(storage, key, value) {
    try {
      storage.setItem(key, value);
      return true;
    } catch {
      return false;
    }
  }
}

// A state as the part of an address that no server sees, and back.

const through = async (bytes, stream) => new Uint8Array(await new Response(new Blob([bytes]).stream().pipeThrough(stream)).arrayBuffer());

export async function fragment({ grammar, text }) {
  const bytes = new TextEncoder().encode(JSON.stringify({ grammar, text }));
  const packed = await through(bytes, new CompressionStream("deflate-raw"));
  const letters = Array.from(packed, (byte) => String.fromCharCode(byte)).join("");
  return `#${btoa(letters).replaceAll("+", "-").replaceAll("/", "_").replaceAll("=", "")}`;
}

export async function unpacked(hash) {
  try {
    const letters = atob(hash.slice(1).replaceAll("-", "+").replaceAll("_", "/"));
    const bytes = Uint8Array.from(letters, (letter) => letter.charCodeAt(0));
    const { grammar, text } = JSON.parse(new TextDecoder().decode(await through(bytes, new DecompressionStream("deflate-raw"))));
    return typeof grammar === "string" && typeof text === "string" ? { grammar, text } : null;
  } catch {
    return null;
  }
}
