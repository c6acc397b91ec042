// Begins, and shows the view that the address names.

import {viewOf} from "./address.js";
import {Atlas} from "./atlas.js";
import {Collection} from "./collection.js";
import {fill, make} from "./dom.js";
import {Prover} from "./prover.js";
import {alertOf} from "./refusals.js";
import {isKnownEntry, keepScrolling, scrollBack} from "./scrolling.js";
import {aboutView} from "./views/about.js";
import {atlasView} from "./views/atlas.js";
import {checkView} from "./views/check.js";
import {findView} from "./views/find.js";
import {gameView} from "./views/game.js";
import {playView} from "./views/play.js";

/**
 * @typedef {object} Page what the views share
 * @property {Atlas} atlas
 * @property {Collection} collection
 * @property {Prover} prover answers questions
 * @property {Prover} finder searches, so that a search keeps nobody waiting
 * @property {ArrayBuffer} module
 */

/** @type {Record<string, (page: Page, root: HTMLElement, word: string) => void | Promise<void>>} */
const VIEWS = {
  atlas: atlasView,
  game: gameView,
  play: playView,
  check: checkView,
  find: findView,
  about: aboutView
};

/** What older browsers lack: without the last one formulas would be read wrongly. */
const NEEDED = ["DecompressionStream", "WebAssembly", "BigInt64Array", "MathMLElement"];

const main = /** @type {HTMLElement} */ (document.getElementById("main"));

/**
 * The bytes that the page holds in an element.
 * @param {string} id
 */
async function unpacked(id) {
  const letters = atob(heldText(id).trim());
  const bytes = new Uint8Array(letters.length);
  // (Uint8Array.from takes ten times as long)
  for (let at = 0; at < letters.length; at++) bytes[at] = letters.charCodeAt(at);
  return new Response(new Blob([bytes]).stream().pipeThrough(new DecompressionStream("gzip"))).arrayBuffer();
}

/**
 * What the page holds in an element as JSON.
 * @param {string} id
 */
async function heldOf(id) {
  return JSON.parse(new TextDecoder().decode(await unpacked(id)));
}

/** @param {string} id */
function heldText(id) {
  return document.getElementById(id)?.textContent ?? "";
}

/**
 * Shows the view of the address. Each has an element of its own, so that an answer that comes late changes no other
 * view.
 * @param {Page} page
 */
async function show(page) {
  const {view, word} = viewOf(location.hash);
  const root = make("div", {class: `view ${view}`});
  fill(main, root);
  for (const link of document.querySelectorAll("nav a")) {
    const isHere = link.getAttribute("href") === `#${view}`;
    if (isHere)
      link.setAttribute("aria-current", "page");
    else
      link.removeAttribute("aria-current");
  }
  page.finder.stop();
  try {
    const shown = (VIEWS[view] ?? atlasView)(page, root, word);
    document.title = titleOf(root);
    await shown;
    if (root.isConnected) document.title = titleOf(root);
  } catch (failure) {
    root.append(alertOf(failure));
  }
}

/** @param {HTMLElement} root */
function titleOf(root) {
  return `${root.querySelector("h1")?.textContent} – Misère quotients`;
}

/** Makes a worker out of the program that the page holds. (One of `file://` may not read it from a file.) */
function makeWorker() {
  const place = URL.createObjectURL(new Blob([heldText("worker")], {type: "text/javascript"}));
  const worker = new Worker(place);
  URL.revokeObjectURL(place);
  return worker;
}

/** Whether the browser has what the page needs. Where it hasn't, the page goes on saying so. */
function isAble() {
  return NEEDED.every((it) => it in globalThis);
}

async function begin() {
  if (!isAble()) return document.getElementById("old")?.classList.add("shown");
  const [module, held] = await Promise.all([unpacked("module"), heldOf("atlas")]);
  const atlas = new Atlas(held);
  const [prover, finder] = [1, 2].map(() => new Prover(makeWorker, module));
  prover.begin();
  const page = {atlas, collection: new Collection(atlas, () => heldOf("infinite")), prover, finder, module};
  keepScrolling();
  isKnownEntry();
  window.addEventListener("hashchange", async () => {
    const isKnown = isKnownEntry();
    main.focus({preventScroll: true});
    if (!isKnown) window.scrollTo(0, 0);
    await show(page);
    if (isKnown) scrollBack();
  });
  document.querySelector(".skip")?.addEventListener("click", (event) => {
    event.preventDefault();
    main.focus();
  });
  const shown = show(page);
  document.documentElement.dataset.ready = performance.now().toFixed(0);
  await shown;
}

begin().catch((failure) => fill(main, alertOf(failure)));
