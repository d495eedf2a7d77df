// The tokens of the lines on the screen.

import { later } from "./link.js";
import { Rows } from "./rows.js";

// A text with its breaks and the like written out.
const plain = (text) => text.replace(/\p{Cc}/gu, (letter) => JSON.stringify(letter).slice(1, -1));

export class TokenList {
  constructor(editor, element) {
    Object.assign(this, { editor, element });
    this.body = element.appendChild(document.createElement("table")).appendChild(document.createElement("tbody"));
    this.rows = new Rows(this.body, (row, key) => key === "Enter" && this.go(row));
    this.refreshSoon = later(80, () => this.refresh());
    editor.listeners.push(this.refreshSoon);
    editor.code.on("viewportChange", this.refreshSoon);
    editor.code.on("cursorActivity", () => this.mark());
    this.body.addEventListener("click", (event) => this.go(event.target.closest("tr")));
  }

  async refresh() {
    const { from, to } = this.editor.code.getViewport();
    const range = { start: { line: from, character: 0 }, end: { line: to, character: 0 } };
    try {
      const { version, rows } = await this.editor.ask("lrls/tokens", { range });
      if (version !== this.editor.version) return;
      this.rows.replace(rows.map((row) => this.row(row)));
      this.mark();
    } catch {
      // The next change asks again.
    }
  }

  row([name, line, start, last, end, text, isSkipped]) {
    const row = document.createElement("tr");
    row.className = isSkipped ? "skipped" : name === "invalid" ? "invalid" : "";
    row.dataset.key = `${line}:${start}`;
    row.tabIndex = -1;
    for (const words of [`${line + 1}:${start + 1}`, name, plain(text)]) {
      row.appendChild(document.createElement("td")).textContent = words;
    }
    Object.assign(row, { from: { line, character: start }, to: { line: last, character: end } });
    return row;
  }

  // Marks the token at the cursor, and has it in view.
  mark() {
    const at = this.editor.cursor();
    const isBefore = (one, other) => (one.line - other.line || one.character - other.character) < 0;
    for (const row of this.body.rows) row.classList.toggle("here", !isBefore(at, row.from) && isBefore(at, row.to));
    const here = this.body.querySelector(".here");
    if (!here) return;
    const [row, view] = [here.getBoundingClientRect(), this.element.getBoundingClientRect()];
    if (row.top < view.top || row.bottom > view.bottom) this.element.scrollTop += row.top - view.top - view.height / 2;
  }

  go(row) {
    if (!row) return false;
    this.editor.go(row.from);
    this.editor.show(row.from, row.to);
    return true;
  }
}
