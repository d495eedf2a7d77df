// A conflict as a picture: what was read, the token that comes, and the two moves between which nothing decides.

// So many symbols stay of the front that both moves have.
const MOST_FRONT = 1;

function made(tag, className, text = "") {
  const element = document.createElement(tag);
  element.className = className;
  element.textContent = text;
  return element;
}

// Boxes side by side, which go on in the next line where there is no more room.
function boxes(groups) {
  const row = made("div", "boxes");
  for (const [kind, symbols] of groups) {
    for (const symbol of symbols) row.append(made("span", `box ${kind}`, symbol));
  }
  return row;
}

// The symbols that were read up to the longer of the two moves: of a long front only the end.
function cut(after, count) {
  const front = after.slice(0, after.length - count);
  return front.length > MOST_FRONT ? ["\u2026", ...front.slice(front.length - MOST_FRONT)] : front;
}

// A reduction takes the last symbols together; a shift takes the token to what was read.
function move(front, kept, token, { move: kind, left, symbols, dot }) {
  if (kind === "shift") {
    const groups = [["read", [...front, ...kept]], ["new", [token]], ["awaited", symbols.slice(dot + 1)]];
    return ["shift", `${token} goes on with ${left}`, groups];
  }
  const rest = kept.slice(0, kept.length - symbols.length);
  const groups = [["read", [...front, ...rest]], ["new", [left]], ["token", [token]]];
  return ["reduce", `${symbols.join(" ") || "nothing"} becomes ${left}`, groups];
}

// Draws a conflict, or nothing where there is none. `go` is called with a line of the grammar. The focus stays at its move; `leave` is called where that is gone.
export function draw(element, fault, go, leave) {
  const items = () => [...element.querySelectorAll(".item")];
  const at = items().indexOf(document.activeElement);
  element.replaceChildren();
  picture(element, fault, go);
  if (at >= 0 && items()[at]) items()[at].focus();
  else if (at >= 0) leave();
}

function picture(element, fault, go) {
  if (!fault?.conflict) return;
  const { token, after, moves } = fault.conflict;
  const count = Math.max(...moves.map(({ dot }) => dot));
  const [front, kept] = [cut(after, count), after.slice(after.length - count)];
  const figure = made("figure", "");
  figure.setAttribute("aria-label", fault.message);
  figure.append(made("div", "told", "read so far, and the token that comes"));
  figure.append(boxes([["read", [...front, ...kept]], ["token", [token]]]));
  for (const one of moves) {
    const [kind, told, groups] = move(front, kept, token, one);
    const title = made("div", "told");
    title.append(made("b", "", kind), `: ${told}`);
    figure.append(title, boxes(groups), item(one, go));
  }
  element.append(figure);
}

// The production of a move, with the place that has been reached in it. A click goes to its line.
function item({ left, symbols, dot, look, line }, go) {
  const words = [...symbols.slice(0, dot), ".", ...symbols.slice(dot)].join(" ");
  const button = made("button", "item", `item: ${left} = ${words}, ${look}  (line ${line + 1})`);
  button.type = "button";
  button.addEventListener("click", () => go(line));
  return button;
}
