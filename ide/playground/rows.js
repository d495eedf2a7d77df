// Rows of which one has the focus: arrows move it, and Tab leaves all of them.

export class Rows {
  // `take` gets a row and the name of a key that is none of those here, and says whether it was one.
  constructor(element, take) {
    this.element = element;
    this.take = take;
    this.key = null;
    element.tabIndex = -1;
    element.addEventListener("keydown", (event) => this.pressed(event));
    element.addEventListener("focusin", (event) => this.entered(event.target.closest("[data-key]")));
  }

  all() {
    return [...this.element.querySelectorAll("[data-key]")];
  }

  // Shows other rows. The focus stays at the row with its key, or goes to the first one; where there is none, what holds them has it meanwhile.
  replace(rows) {
    const hadFocus = this.element.contains(document.activeElement);
    this.element.replaceChildren(...rows);
    const row = this.find(this.key) ?? this.all()[0];
    this.enter(row, hadFocus);
    if (hadFocus && !row) this.element.focus();
  }

  find(key) {
    return this.all().find((row) => row.dataset.key === key);
  }

  entered(row) {
    if (row) this.enter(row, false);
  }

  // Tab comes to this row from now on.
  enter(row, hasFocus = true) {
    for (const other of this.element.querySelectorAll("[tabindex='0']")) other.tabIndex = -1;
    if (!row) return;
    row.tabIndex = 0;
    this.key = row.dataset.key;
    if (hasFocus) row.focus();
  }

  pressed(event) {
    const row = event.target.closest("[data-key]");
    if (!row || event.ctrlKey || event.metaKey || event.altKey) return;
    const rows = this.all();
    const at = rows.indexOf(row);
    const to = { ArrowDown: at + 1, ArrowUp: at - 1, Home: 0, End: rows.length - 1 }[event.key];
    if (to === undefined && !this.take(row, event.key)) return;
    event.preventDefault();
    if (rows[to]) this.enter(rows[to]);
  }
}
