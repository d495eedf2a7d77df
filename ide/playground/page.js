// The page: a grammar at the left, a text in the middle, its tree and tokens at the right.

import { draw } from "./conflict.js";
import { Editor } from "./editor.js";
import { read, save } from "./files.js";
import { Grammar } from "./grammar.js";
import { Link, later } from "./link.js";
import { Store, fragment, unpacked } from "./store.js";
import { tabs } from "./tabs.js";
import { TokenList } from "./tokens.js";
import { TreeView } from "./tree.js";

const FIRST = "script";
const EMPTY = { grammar: "lrgrammar 2\n", text: "" };
const FORMS = { grammar: { name: "grammar.lr", line: "\n" }, text: { name: "text.txt", line: "\n" } };
const part = (id) => document.getElementById(id);
const number = (count) => count.toLocaleString("en");
const editors = {
  grammar: new Editor("grammar", part("grammar"), part("grammar-fault")),
  text: new Editor("text", part("text"), part("text-fault")),
};
const { grammar, text } = editors;
const judge = new Grammar(grammar, judged);
const tree = new TreeView(text, part("tree"), (words) => follows(words));
const tokens = new TokenList(text, part("tokens"));
const store = new Store();
// What stood in both texts before others were put in their place, since the last key.
const before = [];
let forms = FORMS;
let link;
let hasStarted = false;
let isPutting = false;

const edited = later(80, async () => {
  try {
    const { scanned, tokens: all, built, branches } = await text.ask("lr/stats");
    const counts = `scanned ${number(scanned)} of ${number(all)} tokens, built ${number(built)} of ${number(branches)} nodes`;
    part("made").textContent = `the last edit ${counts}, ${text.took.toFixed(1)} ms`;
  } catch {
    part("made").textContent = "";
  }
});

function follows(words) {
  part("follow").textContent = words.length ? `what may follow: ${words.join("  ")}` : "nothing may follow here";
}

// What goes on in the page is said until something else does, and with what takes it back, where something can.
function tell(words, undo) {
  part("shown").textContent = words;
  part("undo").hidden = !undo;
  part("undo").onclick = undo;
}

// The text is looked at by another grammar, or by one that isn't the one there any more.
function judged(fault) {
  draw(part("conflict"), fault, (line) => grammar.go({ line, character: 0 }), () => grammar.code.focus());
  text.note = judge.note();
  const isUnjudged = judge.judging === null;
  document.body.classList.toggle("old", text.note !== "");
  document.body.classList.toggle("unjudged", isUnjudged);
  for (const note of document.querySelectorAll(".note")) note.textContent = text.note;
  if (isUnjudged) text.unjudged();
  else text.hold(false);
  if (!isUnjudged) for (const work of [tree.refreshSoon, tokens.refreshSoon, edited]) work();
  keepSoon();
}

function receive({ from, message, languages, loaded, ...rest }) {
  const editor = editors[from];
  const { method, params } = message ?? {};
  if (languages) begin(languages);
  else if (loaded) load(loaded, rest);
  else if (method === "textDocument/publishDiagnostics") published(editor, params);
  else if (method === "window/logMessage") editor.logged(params.message);
  else if (method === "window/showMessage") tell(params.message);
  else if (message?.capabilities) editor.types = message.capabilities.semanticTokensProvider.legend.tokenTypes;
  else if (message?.restarted) reopen(editor, message.restarted);
}

// The server of an editor has ended, and another one runs.
function reopen(editor, told) {
  link.drop(editor.name);
  editor.open(link);
  if (editor === grammar) judge.use();
  tell(told);
}

function published(editor, params) {
  if (params.uri !== editor.document.uri || params.version !== editor.version) return;
  if (editor === grammar) return judge.formed(params.diagnostics);
  text.published(params);
  if (!text.isHeld) for (const work of [tree.refreshSoon, tokens.refreshSoon, edited]) work();
}

// Where the page begins: with what this tab had, with what the address says, or with the first language of the menu.
async function begin(languages) {
  fill(languages);
  if (hasStarted) return open();
  const linked = await unpacked(location.hash);
  const last = store.last();
  if (!last && !linked) return link.tell({ do: "load", name: FIRST });
  start(last ?? { ...EMPTY, ...linked });
  if (linked) fromAddress(linked);
}

function start(state) {
  hasStarted = true;
  forms = state.forms ?? FORMS;
  Object.assign(judge, { judging: state.judging ?? null, language: state.language ?? null });
  grammar.begin(state.grammar);
  text.begin(state.text);
  named();
  open();
}

function open() {
  text.hold(true);
  grammar.open(link);
  text.open(link);
  judge.begin(link);
}

function load(name, { grammar: given, text: sample, names }) {
  const [grammarForm, textForm] = names.map((its) => ({ name: its, line: "\n" }));
  const state = { grammar: given, text: sample, language: name, forms: { grammar: grammarForm, text: textForm } };
  if (hasStarted) put(state, `${name} is in place of both texts`);
  else start(state);
  part("menu").value = name;
}

// Both texts are others. That is an edit of each, and both can be taken back at once.
function put(state, told) {
  before.push(now());
  replace(state);
  tell(`${told}.`, back);
}

function back() {
  replace(before.pop());
  tell("Both texts are as they were.", before.length ? back : undefined);
}

function replace(state) {
  isPutting = true;
  text.hold(true);
  grammar.put(state.grammar);
  text.put(state.text);
  isPutting = false;
  forms = state.forms ?? FORMS;
  judge.take(state.judging ?? null, state.language ?? null);
  part("menu").value = "";
  named();
  keepSoon();
}

// A key was typed, or what stands for one.
function typed(editor) {
  keepSoon();
  if (isPutting) return;
  before.length = 0;
  tell("");
  if (editor === grammar) part("menu").value = "";
}

const now = () => ({ grammar: grammar.text(), text: text.text(), forms, language: judge.language, judging: judge.judging });

function keep() {
  if (hasStarted && !store.keep(now())) tell("The browser has no room to keep these texts: save them to files.");
}
const keepSoon = later(300, keep);

function named() {
  document.title = `${forms.grammar.name}, ${forms.text.name} - lrls`;
}

async function fromAddress(linked) {
  history.replaceState(null, "", location.pathname);
  put({ ...EMPTY, ...linked }, "What the address holds is in place of both texts");
}

function fill(languages) {
  const kept = store.others().map(({ key, forms: its, at }) => {
    const when = new Date(at).toLocaleString("en-GB", { dateStyle: "medium", timeStyle: "short" });
    return new Option(`${its?.grammar.name ?? "grammar"}, ${when}`, key);
  });
  const group = document.createElement("optgroup");
  group.label = "of other tabs";
  group.append(...kept);
  const groups = kept.length ? [group] : [];
  part("menu").replaceChildren(new Option("choose ..", ""), ...languages.map((name) => new Option(name, name)), ...groups);
}

function chosen(name) {
  const other = store.others().find(({ key }) => key === name);
  if (other) put(other, "What another tab had is in place of both texts");
  else if (name) link.tell({ do: "load", name });
}

async function loadFile(editor, input) {
  const [file] = input.files;
  input.value = "";
  if (!file) return;
  const { text: given, form, told } = await read(file);
  if (given !== undefined) {
    const state = { ...now(), [editor.name]: given, forms: { ...forms, [editor.name]: form } };
    put(editor === grammar ? { ...state, language: null, judging: null } : state, `${form.name} is loaded`);
  }
  if (told) tell(told, given === undefined ? undefined : back);
}

async function copyLink() {
  const address = location.href.split("#")[0] + (await fragment(now()));
  try {
    await navigator.clipboard.writeText(address);
    tell("The link is copied. It holds both texts behind its #, and the key of this page before it.");
  } catch {
    tell("The browser doesn't let the page copy: take the link from the address.");
    history.replaceState(null, "", address);
  }
}

function connect() {
  part("lost").hidden = true;
  link = new Link(receive, (reason) => {
    part("lost").querySelector("span").textContent = `${reason}. What is in the editors is still there.`;
    part("lost").hidden = false;
  });
}

for (const editor of [grammar, text]) {
  editor.listeners.push(() => typed(editor));
  const input = part(`${editor.name}-file`);
  part(`load-${editor.name}`).addEventListener("click", () => input.click());
  input.addEventListener("change", () => loadFile(editor, input));
  part(`save-${editor.name}`).addEventListener("click", () => save(editor, forms[editor.name]));
}
text.listeners.push(edited);
part("menu").addEventListener("change", (event) => chosen(event.target.value));
part("empty").addEventListener("click", () => put(EMPTY, "Both texts are empty"));
part("copy").addEventListener("click", copyLink);
part("lost").querySelector("button").addEventListener("click", connect);
addEventListener("pagehide", keep);
addEventListener("hashchange", async () => {
  const linked = await unpacked(location.hash);
  if (linked && hasStarted) fromAddress(linked);
});
tabs(part("tabs"), () => { for (const { code } of [grammar, text]) code.refresh(); });
connect();
