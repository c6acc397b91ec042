// Going back to a view shows it where it was scrolled to. Each entry of the browser's history has a number in its
// state.

/** @type {Map<number, number>} */
const places = new Map();
let last = 0;

/** @returns {number} that of the entry of the history, or 0 where it has none yet */
const entry = () => history.state?.entry ?? 0;

/** Begins to keep how far each entry of the history is scrolled. */
export function keepScrolling() {
  history.scrollRestoration = "manual";
  window.addEventListener("scroll", () => places.set(entry(), window.scrollY), {passive: true});
}

/** Whether the entry of the history has been here before. Else it gets a number. */
export function isKnownEntry() {
  if (entry() > 0 && places.has(entry())) return true;
  last = Math.max(last, entry()) + 1;
  places.set(last, 0);
  history.replaceState({...history.state, entry: last}, "");
  return false;
}

/** Scrolls to where the entry of the history was. */
export function scrollBack() {
  window.scrollTo(0, places.get(entry()) ?? 0);
}
