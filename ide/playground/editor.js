// A text that one of the two servers looks at: its faults, its colours and its folds.

import { later } from "./link.js";

const place = ({ line, character }) => ({ line, ch: character });
const position = ({ line, ch }) => ({ line, character: ch });
const LOGGED = "document lost: ";
const LOST = {
  "too large": "more than 1,048,576 bytes: it isn't looked at until it is shorter",
  "no memory": "too little memory for it: it isn't looked at until it is shorter",
};
// A longer text has more bytes than the server takes.
const MOST_UNITS = 1_048_576;
const LEAVE = "Escape, then Tab leaves it";

export class Editor {
  constructor(name, element, faultLine) {
    this.name = name;
    this.document = { uri: `page:${name}` };
    this.faultLine = faultLine;
    this.version = 0;
    this.isQuiet = false;
    this.isHeld = false;
    this.diagnostics = [];
    this.note = "";
    this.lost = "";
    // When the last change was sent, as long as nothing was published for it, and how many milliseconds that took.
    this.sentAt = null;
    this.took = 0;
    this.marks = [];
    this.faults = [];
    this.node = null;
    this.folds = new Map();
    this.types = [];
    this.listeners = [];
    this.code = CodeMirror(element, {
      lineNumbers: true,
      foldGutter: true,
      gutters: ["CodeMirror-linenumbers", "CodeMirror-foldgutter"],
      foldOptions: { rangeFinder: (_, at) => this.foldAt(at.line) },
    });
    this.code.getInputField().setAttribute("aria-label", `${name}; ${LEAVE}`);
    this.lookSoon = later(60, () => this.look());
    this.code.on("beforeChange", (_, change) => this.makeWellFormed(change));
    this.code.on("changes", (_, changes) => this.changed(changes));
    this.code.on("viewportChange", this.lookSoon);
    this.code.on("keydown", (_, event) => this.pressed(event));
    this.code.on("blur", () => this.letTabLeave(false));
  }

  text() {
    return this.code.getValue();
  }

  // Begins with a text, to which no undo leads back.
  begin(text) {
    this.isQuiet = true;
    this.code.setValue(text);
    this.code.clearHistory();
    this.isQuiet = false;
  }

  // Puts a text in place of this one, which can be undone.
  put(text) {
    if (text !== this.text()) this.code.setValue(text);
  }

  // Opens the text at a server.
  open(link) {
    this.link = link;
    this.version += 1;
    const document = { ...this.document, languageId: this.name, version: this.version, text: this.text() };
    this.sentAt = performance.now();
    link.notify(this.name, "textDocument/didOpen", { textDocument: document });
    this.lookSoon();
  }

  // A text that the server has lost is opened again, once it is short enough.
  openAgain() {
    if (this.text().length > MOST_UNITS) return;
    this.link.notify(this.name, "textDocument/didClose", { textDocument: this.document });
    this.open(this.link);
  }

  // Half of a pair of units is no character to the server.
  makeWellFormed(change) {
    const lines = change.text.map((line) => line.replace(/\p{Surrogate}/gu, "\ufffd"));
    if (lines.some((line, at) => line !== change.text[at])) change.update?.(change.from, change.to, lines);
  }

  changed(changes) {
    if (this.isQuiet) return;
    if (this.link) this.tell(changes);
    for (const listener of this.listeners) listener();
  }

  tell(changes) {
    if (this.lost) return this.openAgain();
    this.version += 1;
    const contentChanges = changes.map(({ from, to, text }) => ({
      range: { start: position(from), end: position(to) },
      text: text.join("\n"),
    }));
    this.sentAt = performance.now();
    this.link.notify(this.name, "textDocument/didChange", {
      textDocument: { ...this.document, version: this.version },
      contentChanges,
    });
    this.lookSoon();
  }

  // Escape lets the next Tab leave the editor.
  pressed(event) {
    if (event.key === "Escape") this.letTabLeave(true);
    else if (!["Tab", "Shift"].includes(event.key)) this.letTabLeave(false);
  }

  letTabLeave(isLet) {
    this.code.setOption("extraKeys", isLet ? { Tab: false, "Shift-Tab": false } : {});
  }

  ask(method, more = {}) {
    return this.link.request(this.name, method, { textDocument: this.document, ...more });
  }

  cursor() {
    return position(this.code.getCursor());
  }

  // The server has published faults. Without a version it has lost the text, and says why next.
  published({ diagnostics, version }) {
    if (version !== this.version) return;
    if (this.sentAt !== null) this.took = performance.now() - this.sentAt;
    this.sentAt = null;
    this.lost = "";
    this.diagnostics = diagnostics;
    this.say();
  }

  logged(words) {
    if (!words.startsWith(LOGGED)) return;
    const cause = words.slice(LOGGED.length);
    this.lost = LOST[cause] ?? `the server has lost it: ${cause}`;
    this.diagnostics = [];
    this.say();
  }

  // Holds back what is said of the text, until it is by the grammar that counts.
  hold(isHeld) {
    this.isHeld = isHeld;
    if (isHeld) return;
    this.say();
    this.lookSoon();
  }

  // Nothing is said of the text, since there is no grammar for it.
  unjudged() {
    this.hold(true);
    this.mark([]);
    this.paint([]);
    this.folds.clear();
    this.faultLine.textContent = this.note;
    this.faultLine.className = "fault old";
  }

  say() {
    if (this.isHeld) return;
    this.mark(this.diagnostics);
    const [fault] = this.diagnostics;
    const start = fault?.range.start;
    const words = this.lost || (fault ? `${start.line + 1}:${start.character + 1}: ${fault.message}` : "no fault");
    this.faultLine.textContent = this.note ? `${words}; ${this.note}` : words;
    this.faultLine.classList.toggle("none", !fault && !this.lost && !this.note);
    this.faultLine.classList.toggle("old", !fault && !this.lost && this.note !== "");
  }

  mark(diagnostics) {
    for (const mark of this.faults) mark.clear();
    this.faults = diagnostics.map(({ range, message }) => {
      const [start, end] = [place(range.start), place(range.end)];
      if (CodeMirror.cmpPos(start, end) !== 0) {
        return this.code.markText(start, end, { className: "mark-fault", attributes: { title: message } });
      }
      const line = this.code.addLineClass(Math.min(start.line, this.code.lastLine()), "background", "line-fault");
      return { clear: () => this.code.removeLineClass(line, "background", "line-fault") };
    });
  }

  // Asks for the colours of what is on the screen, and for the folds.
  async look() {
    if (this.isHeld) return;
    const version = this.version;
    const { from, to } = this.code.getViewport();
    const range = { start: { line: from, character: 0 }, end: { line: Math.max(to - 1, from), character: 0 } };
    try {
      const [colours, folds] = await Promise.all([
        this.ask("textDocument/semanticTokens/range", { range }),
        this.ask("textDocument/foldingRange"),
      ]);
      if (version !== this.version) return;
      this.paint(colours.data);
      this.folds = new Map(folds.map(({ startLine, endLine }) => [startLine, endLine]));
      this.code.setOption("foldGutter", false);
      this.code.setOption("foldGutter", true);
    } catch {
      // The text was changed meanwhile, or no core runs: the next change asks again.
    }
  }

  paint(data) {
    this.code.operation(() => {
      for (const mark of this.marks) mark.clear();
      this.marks = [];
      let line = 0;
      let character = 0;
      for (let at = 0; at < data.length; at += 5) {
        line += data[at];
        character = data[at + 1] + (data[at] === 0 ? character : 0);
        const className = `t-${this.types[data[at + 3]]}`;
        this.marks.push(this.code.markText({ line, ch: character }, { line, ch: character + data[at + 2] }, { className }));
      }
    });
  }

  foldAt(line) {
    const end = this.folds.get(line);
    if (end === undefined || end > this.code.lastLine()) return undefined;
    return { from: { line, ch: this.code.getLine(line).length }, to: { line: end, ch: this.code.getLine(end).length } };
  }

  // Marks the text of a node or a token.
  show(start, end) {
    this.unshow();
    this.node = this.code.markText(place(start), place(end), { className: "mark-node" });
    this.code.scrollIntoView({ from: place(start), to: place(start) }, 40);
  }

  unshow() {
    this.node?.clear();
    this.node = null;
  }

  go(start) {
    this.code.setCursor(place(start));
    this.code.focus();
  }
}
