// The tabs of a narrow page, which shows one of its parts at a time.

export function tabs(list, onShow) {
  const all = [...list.querySelectorAll("[role='tab']")];
  const show = (tab, hasFocus) => {
    for (const other of all) {
      other.setAttribute("aria-selected", other === tab);
      other.tabIndex = other === tab ? 0 : -1;
    }
    document.body.dataset.tab = tab.dataset.tab;
    if (hasFocus) tab.focus();
    onShow();
  };
  list.addEventListener("click", (event) => {
    const tab = event.target.closest("[role='tab']");
    if (tab) show(tab, false);
  });
  list.addEventListener("keydown", (event) => {
    const step = { ArrowRight: 1, ArrowLeft: -1 }[event.key];
    const at = all.indexOf(event.target);
    if (!step || at < 0) return;
    event.preventDefault();
    show(all[(at + step + all.length) % all.length], true);
  });
  show(all[0], false);
}
