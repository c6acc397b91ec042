// Other certificates of the atlas with the same quotient.

import {gameAddress} from "../address.js";
import {make} from "../dom.js";

/**
 * @param {import("../main.js").Page} page
 * @param {import("./present.js").Game} game
 */
export function relativesSection({atlas}, {name}) {
  const entry = atlas.entry(name);
  if (!entry) return null;
  const [same, isomorphic] = [atlas.sameQuotient(entry), atlas.isomorphic(entry)];
  return make(
      "section", {class: "relatives"}, make("h2", {}, "Its relatives in the atlas"),
      listed("The same lines but for the code, so the same element of each heap", same),
      listed("Another quotient whose bipartite monoid is isomorphic", isomorphic),
      isomorphic.length > 0 &&
          make(
              "p", {class: "soft"},
              "Isomorphisms were looked for by a script when this page was made; they are not proved."));
}

/**
 * @param {string} what
 * @param {import("../atlas.js").Entry[]} entries
 */
function listed(what, entries) {
  const links = entries.flatMap(({name}) => [make("a", {href: gameAddress(name)}, name), " "]);
  return make(
      "details", {open: links.length > 0 && entries.length <= 24},
      make("summary", {}, `${what}: ${entries.length || "none"}`), make("p", {class: "codes"}, links));
}
