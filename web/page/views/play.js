// A play against the program, of any game with a certificate here.

import {playAddress, playOf} from "../address.js";
import {choice, fill, labelled, make} from "../dom.js";
import {Oracle} from "../oracle.js";
import {Board} from "../play/board.js";
import {LARGEST_HEAP_PLAYED, MOST_HEAPS_PLAYED} from "../play/bounds.js";
import {readingOf, USUAL_HEAPS} from "../play/reading.js";
import {Session} from "../play/session.js";
import {heapsOfText} from "../positions.js";
import {PRESENTED} from "../presented/fields.js";

/** @typedef {import("../main.js").Page} Page */

const USUAL_NAME = "0.77";
const LARGEST_DEALT = 12;
const UNABLE = "This page’s module has no calls for such a certificate, so nothing plays here.";

const HOW = ". Choose adjacent tokens of a heap; what is left on either side stays as heaps. " +
    "The program plays by the certified quotient: where a move wins, it makes one.";

/**
 * @param {Page} page
 * @param {HTMLElement} root
 * @param {string} word
 */
export async function playView(page, root, word) {
  const said = playOf(word);
  const name = said.name || USUAL_NAME;
  const rule = make("strong", {}, "the player who makes the last move loses");
  fill(root, make("h1", {}, "Play"), make("p", {}, "Each in turn makes a move, and ", rule, HOW));
  const heaps = said.heaps ?? (await usualHeaps(page, name));
  const board = make("div", {id: "board"});
  const setup = setupForm(page, name, heaps);
  setup.addEventListener("submit", (event) => {
    event.preventDefault();
    const {name, heaps, first} = Object.fromEntries(new FormData(setup));
    return begin(page, board, String(name).trim(), String(heaps), first === "program" ? "program" : "you");
  });
  root.append(setup, board);
  await begin(page, board, name, heaps, null);
}

/**
 * Begins a play; or, where nobody is said to move first, goes on with the one that the browser's history has here.
 * @param {Page} page
 * @param {HTMLElement} board
 * @param {string} name
 * @param {string} heaps
 * @param {import("../play/session.js").Player | null} first
 */
async function begin(page, board, name, heaps, first) {
  const text = await page.collection.find(name);
  const sizes = heapsOfText(heaps)?.map(Number);
  const oracle = new Oracle(page.prover, new TextEncoder().encode(text ?? ""));
  const fault = faultOf(text, sizes) || ((await oracle.isAble()) ? "" : UNABLE);
  if (!board.isConnected) return;
  if (!text || !sizes || fault) return fill(board, make("p", {class: "verdict none", role: "alert"}, fault));
  const address = playAddress(name, sizes);
  const {code} = readingOf(text);
  const kept = first ? null : keptSession(code, history.state?.play, address);
  if (first && location.hash !== address)
    history.pushState(null, "", address);
  else
    history.replaceState({...history.state, play: kept?.record}, "", address);
  const session = kept ?? new Session(code, {name, first: sizes, turns: []});
  const it = new Board(board, oracle, session);
  await (first === "program" ? it.reply() : it.turn());
}

/**
 * The play that the browser's history has kept for an address, or null.
 * @param {string} code
 * @param {any} record
 * @param {string} address
 */
function keptSession(code, record, address) {
  if (!Array.isArray(record?.first) || !Array.isArray(record?.turns)) return null;
  const session = new Session(code, record);
  return playAddress(session.name, session.heaps) === address ? session : null;
}

/**
 * Why a play can't begin, or the empty text.
 * @param {string | null} text the certificate
 * @param {number[] | undefined} heaps
 */
function faultOf(text, heaps) {
  if (!text) return "This page has no certificate of that game.";
  if (!heaps || heaps.length === 0) return "A position is a list of heaps, such as 3 4 5.";
  if (heaps.length > MOST_HEAPS_PLAYED || Math.max(...heaps) > LARGEST_HEAP_PLAYED)
    return `A board has up to ${MOST_HEAPS_PLAYED} heaps of at most 10^15.`;
  const {reach, speaksOf} = readingOf(text);
  return speaksOf(heaps) ? "" : `The certificate speaks of ${reach}.`;
}

/**
 * @param {Page} page
 * @param {string} name
 */
async function usualHeaps(page, name) {
  const text = await page.collection.find(name);
  return (text ? readingOf(text).usual : USUAL_HEAPS).join(",");
}

/**
 * @param {Page} page
 * @param {string} name
 * @param {string} heaps
 */
function setupForm({atlas}, name, heaps) {
  const codes = make("datalist", {id: "codes"}, [...atlas.games.keys()].map((code) => make("option", {value: code})));
  const sizes = make("input", {id: "start", name: "heaps", value: heaps.replaceAll(",", " "), autocomplete: "off"});
  const deal = () => (sizes.value = dealt(atlas, game.value.trim()));
  const game = make(
      "input",
      {id: "code", name: "name", value: name, list: "codes", autocomplete: "off", spellcheck: "false", size: 12});
  return make(
      "form", {class: "row setup"}, codes, labelled("Game", game), labelled("Heaps", sizes),
      make("button", {type: "button", id: "deal", onclick: deal}, "Other heaps"),
      labelled(
          "First to move", choice({id: "first", name: "first"}, [["you", "you"], ["program", "the program"]], "you")),
      make("button", {id: "begin"}, "New game"));
}

/**
 * Some heaps by chance.
 * @param {import("../atlas.js").Atlas} atlas
 * @param {string} name
 */
function dealt(atlas, name) {
  const [code, part] = name.split("/"), reach = part?.replace(`${PRESENTED}-`, "");
  const [last, ...leftOut] = reach ? reach.split("-").map(Number) : [atlas.entry(code)?.last ?? LARGEST_DEALT];
  // (of a whole game it is no number)
  const sizes = Array.from({length: Math.min(LARGEST_DEALT, last || LARGEST_DEALT)}, (_, at) => at + 1);
  const all = sizes.filter((heap) => !leftOut.includes(heap));
  const chance = (/** @type {number} */ count) => Math.floor(Math.random() * count);
  return Array.from({length: 3 + chance(3)}, () => all[chance(all.length)]).join(" ");
}
