// The grammar that the text is looked at by: the one in its editor once nobody types in it and it has no fault, else the last one.

import { later } from "./link.js";

const WAIT = 250;

// The first line in which two texts differ, and whether that is behind the end of the new one.
function changedLine(old, now) {
  const [before, lines] = [old.split("\n"), now.split("\n")];
  let at = 0;
  while (at < lines.length && lines[at] === before[at]) at += 1;
  return at < lines.length ? `before line ${at + 1} was changed` : `before what stood behind line ${at} was removed`;
}

export class Grammar {
  // `onJudged` is called when the text is looked at by another grammar, or one that isn't the editor's any more.
  constructor(editor, onJudged) {
    Object.assign(this, { editor, onJudged });
    // The last text without a fault, and the language of the menu whose settings it has.
    this.judging = null;
    this.language = null;
    // What is wrong with the text, once that is known, and its fault of form.
    this.fault = undefined;
    this.form = null;
    // The text that was sent last, and the last one without a fault that was.
    this.sent = null;
    this.served = null;
    this.turn = 0;
    editor.listeners.push(later(WAIT, () => this.editor.text() !== this.sent && this.use()));
  }

  // Begins with a link.
  begin(link) {
    this.link = link;
    this.served = null;
    return this.take(this.judging, this.language);
  }

  // Another text is in the editor. Until it has no fault, this last one without a fault counts, if there is one.
  async take(judging, language) {
    Object.assign(this, { judging, language, turn: this.turn + 1 });
    if (judging !== null && judging !== this.served && judging !== this.editor.text()) await this.send(judging);
    await this.use();
  }

  async use() {
    const fault = await this.send(this.editor.text());
    if (fault === undefined) return;
    this.fault = fault;
    this.show();
    this.onJudged(fault);
  }

  // What is wrong with a grammar, or nothing: then the text is looked at by it. Where nobody answers, or the text was replaced meanwhile, that isn't known.
  async send(text) {
    const { turn } = this;
    this.sent = text;
    try {
      const { fault } = await this.link.request("grammar", "lrls/grammar", { text });
      if (turn !== this.turn) return undefined;
      if (!fault) await this.place(text);
      return turn === this.turn ? fault : undefined;
    } catch {
      return undefined;
    }
  }

  // Has the text looked at by this grammar, with the settings of a language of the menu where they fit.
  async place(text) {
    const { turn } = this;
    const { language } = await this.link.request("page", "page/place", { text, language: this.language });
    this.served = text;
    if (turn === this.turn) Object.assign(this, { judging: text, language });
  }

  // By which grammar the text is looked at, where it isn't the one that stands there.
  note() {
    if (!this.fault) return "";
    if (this.judging === null) return "not looked at: there is no grammar without a fault yet";
    return `by the grammar ${changedLine(this.judging, this.editor.text())}`;
  }

  // Faults of form have the exact place. What is known of the commonest mistakes says more than what was expected there.
  formed(diagnostics) {
    this.form = diagnostics[0] ?? null;
    this.show();
  }

  show() {
    const { form, fault, editor } = this;
    if (!form && fault === undefined) return;
    const hint = form && fault?.range.start.line === form.range.start.line ? fault.hint : null;
    const shown = form ? { ...form, message: hint ? `${hint} (${form.message})` : form.message } : fault;
    editor.published({ diagnostics: shown ? [shown] : [], version: editor.version });
  }
}
