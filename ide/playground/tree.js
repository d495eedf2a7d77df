// The tree of the text. What the cursor is in is open, lists are flat, and the parts of a node come by page.

import { later } from "./link.js";
import { Rows } from "./rows.js";

// Nodes are named by the ways to them, so that they stay open while the text changes.
const keyOf = (path) => path.join("/");
const wayTo = (key) => (key ? key.split("/").map(Number) : []);
const within = (key, index) => (key ? `${key}/${index}` : `${index}`);
// Lines are moved in up to this level. So many lines above the cursor's stay in view.
const DEEPEST = 20;
const MOST_KEPT = 5;
// So many pixels stay free behind the cursor's line.
const MARGIN = 8;
// So many parts are on a page.
const PAGE = 100;
const levelOf = (row) => Number(row.getAttribute("aria-level"));
const number = (count) => count.toLocaleString("en");

function made(tag, className, text = "") {
  const element = document.createElement(tag);
  element.className = className;
  element.textContent = text;
  return element;
}

export class TreeView {
  constructor(editor, element, onFollow) {
    Object.assign(this, { editor, element, onFollow });
    this.opened = new Map([["", 0]]);
    this.closed = new Set();
    this.turned = new Map();
    this.nodes = new Map();
    this.path = [];
    this.rows = new Rows(element, (row, key) => this.pressed(row, key));
    this.refreshSoon = later(80, () => this.refresh());
    editor.listeners.push(this.refreshSoon);
    editor.code.on("cursorActivity", () => this.moved());
    element.addEventListener("click", (event) => this.clicked(event));
    element.addEventListener("mouseover", (event) => this.pointed(event.target.closest("[data-key]")));
    element.addEventListener("mouseleave", () => editor.unshow());
  }

  moved() {
    this.closed.clear();
    this.turned.clear();
    this.isMoved = true;
    this.refreshSoon();
  }

  // Asks for the way to the cursor, the nodes on it, and those that are open besides. One question is under way at a time.
  async refresh() {
    if (this.isAsking) return this.refreshSoon();
    this.isAsking = true;
    const { version } = this.editor;
    const open = [...this.opened, ...this.turned].map(([key, part]) => ({ path: wayTo(key), part }));
    try {
      const found = await this.editor.ask("lrls/nodes", { position: this.editor.cursor(), open: open.slice(-60) });
      if (found.version === this.editor.version && version === found.version) this.take(found);
    } catch (error) {
      if (error.message !== "content modified") this.say(error.message);
    } finally {
      this.isAsking = false;
    }
  }

  take({ root, path, nodes, follow }) {
    this.onFollow(follow);
    this.root = root;
    this.path = path;
    this.nodes.clear();
    for (const node of nodes) {
      const key = keyOf(node.path);
      // The page of the cursor counts, until another one is turned to.
      if (!this.nodes.has(key) || this.turned.has(key)) this.nodes.set(key, node);
    }
    if (root) this.draw();
    else this.say("no tree: the text has a fault, and nothing is known before it");
  }

  say(words) {
    this.rows.replace([made("div", "missing", words)]);
  }

  isOnWay(key) {
    return `${keyOf(this.path)}/`.startsWith(`${key}/`) || key === "";
  }

  isOpen(key) {
    return !this.closed.has(key) && (this.opened.has(key) || (this.isOnWay(key) && key !== keyOf(this.path)));
  }

  draw() {
    const rows = [];
    this.lines(rows, this.root, "", { level: 1, size: 1, position: 1 });
    this.rows.replace(rows);
    this.keepInView(rows.filter((row) => row.classList.contains("here")));
  }

  // The line of a part, and those of its parts.
  lines(rows, part, key, place) {
    const isOpen = part.hasParts && this.isOpen(key);
    rows.push(this.line(part, key, place, isOpen));
    if (isOpen && this.nodes.has(key)) this.parts(rows, this.nodes.get(key), key, place.level + 1);
    else if (isOpen && this.isOnWay(key)) this.further(rows, key, place.level + 1);
  }

  parts(rows, { first, count, parts }, key, level) {
    if (first > 0) rows.push(this.page(key, first - PAGE, count, level));
    for (const [index, part] of parts.entries()) {
      const place = { level, size: count, position: first + index + 1 };
      this.lines(rows, part, within(key, first + index), place);
    }
    const next = first + parts.length;
    if (next < count) rows.push(this.page(key, next, count, level));
  }

  // Of a long way the middle isn't told: the lines go on at the next node that is.
  further(rows, key, level) {
    const depth = wayTo(key).length;
    const next = this.path.findIndex((_, at) => at > depth && this.nodes.has(keyOf(this.path.slice(0, at))));
    if (next < 0) return;
    rows.push(made("div", "missing", `${number(next - depth)} levels further in`));
    const inner = keyOf(this.path.slice(0, next));
    this.parts(rows, this.nodes.get(inner), inner, level + next - depth);
  }

  row(key, level, className) {
    const row = made("div", className);
    row.dataset.key = key;
    row.setAttribute("role", "treeitem");
    row.setAttribute("aria-level", level);
    row.style.setProperty("--level", Math.min(level, DEEPEST) - 1);
    row.tabIndex = -1;
    return row;
  }

  line(part, key, { level, size, position }, isOpen) {
    const isHere = this.isOnWay(key);
    const row = this.row(key, level, `${part.isNode ? "node" : "token"}${isHere ? " here" : ""}${part.isThere ? "" : " missing"}`);
    row.setAttribute("aria-setsize", size);
    row.setAttribute("aria-posinset", position);
    if (part.hasParts) row.setAttribute("aria-expanded", isOpen);
    if (key === keyOf(this.path)) row.setAttribute("aria-selected", true);
    row.told = part;
    const fold = made("span", "fold", part.hasParts ? (isOpen ? "\u25be" : "\u25b8") : "");
    fold.setAttribute("aria-hidden", true);
    row.append(fold, made("span", "names", part.names.join(" \u203a ")));
    if (part.text) row.append(made("span", "said", ` ${part.text}`));
    if (!part.isThere) row.title = "missing: it would end what stands before the fault";
    return row;
  }

  // The line that leads to another page of a node.
  page(key, part, count, level) {
    const row = this.row(`${key}@${part}`, level, "page");
    row.turn = () => { this.turned.set(key, part); this.refresh(); };
    row.textContent = `\u2026 ${number(part + 1)} to ${number(Math.min(part + PAGE, count))} of ${number(count)}`;
    return row;
  }

  // The lines on the way to the cursor stay in view, and its own one comes there when it moves.
  keepInView(here) {
    const line = here[0]?.offsetHeight ?? 0;
    const kept = here.slice(0, -1).slice(-MOST_KEPT);
    for (const [index, row] of kept.entries()) {
      row.classList.add("kept");
      row.style.top = `${index * line}px`;
    }
    this.element.style.scrollPaddingTop = `${kept.length * line}px`;
    const last = here.at(-1);
    if (!this.isMoved || !last) return;
    this.isMoved = false;
    const { scrollTop, clientHeight, clientWidth } = this.element;
    const top = last.offsetTop - scrollTop;
    const isInView = top >= kept.length * line && top + line <= clientHeight;
    if (!isInView) this.element.scrollTop = Math.max(0, last.offsetTop - clientHeight / 2);
    const [{ offsetLeft: left }, { offsetLeft, offsetWidth }] = [last.firstChild, last.lastChild];
    this.element.scrollLeft = Math.min(left, offsetLeft + offsetWidth + MARGIN - clientWidth);
  }

  pointed(row) {
    if (row?.told?.start) this.editor.show(row.told.start, row.told.end);
  }

  clicked(event) {
    const row = event.target.closest("[data-key]");
    if (!row) return;
    if (row.turn) row.turn();
    else if (event.target.closest(".fold") && row.told.hasParts) this.toggle(row.dataset.key);
    else this.go(row);
  }

  go({ told: part }) {
    if (!part?.start) return;
    this.editor.go(part.start);
    this.editor.show(part.start, part.end);
  }

  // The keys of a tree: right opens a node and goes into it, left closes it and goes out of it.
  pressed(row, key) {
    const name = row.dataset.key;
    const isOpen = row.getAttribute("aria-expanded");
    if (key === "Enter" || key === " ") row.turn ? row.turn() : this.go(row);
    else if (key === "ArrowRight" && isOpen === "false") this.toggle(name);
    else if (key === "ArrowRight" && isOpen === "true") this.rows.enter(this.inner(row));
    else if (key === "ArrowLeft" && isOpen === "true") this.toggle(name);
    else if (key === "ArrowLeft") this.rows.enter(this.outer(row));
    else return false;
    this.pointed(this.rows.find(this.rows.key));
    return true;
  }

  // The line of the first part, and that of the node around; the line itself where there is none.
  inner(row) {
    const rows = this.rows.all();
    const next = rows[rows.indexOf(row) + 1];
    return next && levelOf(next) > levelOf(row) ? next : row;
  }

  outer(row) {
    const rows = this.rows.all();
    return rows.slice(0, rows.indexOf(row)).findLast((one) => levelOf(one) < levelOf(row)) ?? row;
  }

  toggle(key) {
    if (this.isOpen(key)) {
      this.opened.delete(key);
      this.closed.add(key);
    } else {
      this.opened.set(key, 0);
      this.closed.delete(key);
    }
    this.draw();
    if (this.isOpen(key) && !this.nodes.has(key)) this.refresh();
  }
}
