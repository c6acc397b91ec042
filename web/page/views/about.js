// What is proved, and what is trusted.

import {fill, make} from "../dom.js";

const GAMES =
    "In an octal or hexadecimal game each digit of the code says what may be left of a heap if as many tokens are " +
    "taken. In misère play the player who makes the last move loses. A misère quotient is a commutative monoid with " +
    "an element for each heap and a portion 𝒫: a position is lost for the player to move exactly if the product of " +
    "its heaps lies in 𝒫. It is finite for some games and infinite for others.";

const PROVED = [
  "If the checker says yes to a full certificate, its portion predicts the misère outcome of every position of " +
      "the game, of any number of heaps of any size, and its monoid is the misère quotient. There is no premise.",
  "If it says yes to a partial certificate, the same holds for the game in which only the heaps up to its last one " +
      "occur.",
  "If it says yes or infinite to a presentation, that is right about who wins each position of its heaps, and about " +
      "which positions are indistinguishable. If infinite, neither these heaps nor the whole game have a finite " +
      "quotient.",
  "If it says infinite, and whole, to the text of a whole game, that is right about who wins each position of the " +
      "game, of any number of heaps of any size, and about which positions are indistinguishable.",
  "A no is true of the bytes: the fault that is named is there. (8, 9 and 33 say no more than that no yes came.)",
  "The relations, words, units, idempotents and kernel of a description are those of the certified quotient. The " +
      "outcome of a position, its element and its first winning move are true.",
  "What the finder hands out is accepted by the checker. If it finds nothing, nothing is proved.",
  "For each certificate of a finite quotient in the atlas Coq, another prover, has proved the same without axioms. " +
      "So it has for each text of a whole game, and for most games that are normal play beyond a heap. The page " +
      "doesn’t run it.",
];

const TRUSTED = [
  "The prover, its compiler and its library, as for the program itself.",
  "That the proved code, which is compiled for x86-64 up to the last step, means the same for WebAssembly; the last " +
      "step; the module’s heap, and its products and shifts of 128 bits, which are short C; and the step that makes " +
      "its addresses 32 bits wide.",
  "Your browser, and how the page passes bytes to the module and back.",
  "What the page draws. Its rules in words, its moves, its words for elements beyond those of a description, its " +
      "components and its pictures are its own reading of a certificate. So are the triples of a whole game.",
  "Beyond which heap a game is normal play: the program said so when the page was made.",
  "Which quotients are isomorphic, and which are tame in the list of the atlas: both were worked out when the page " +
      "was made. (A game’s page works out again whether it is tame.)",
];

/**
 * @param {import("../main.js").Page} page
 * @param {HTMLElement} root
 */
export async function aboutView({atlas, module}, root) {
  const list = (/** @type {string[]} */ items) => make("ul", {}, items.map((it) => make("li", {}, it)));
  const sum = make("code", {class: "sum"}, "…");
  const checked = `The page holds the certificates of ${atlas.games.size} small games, and of ` +
      `${atlas.infinite.size + atlas.whole.size} of them certificates that they have no finite quotient. What it ` +
      "says of a game is " +
      "checked here by the proved checker, compiled for the browser. Nothing is asked of a server and nothing is sent.";
  const version = document.querySelector("meta[name=version]")?.getAttribute("content");
  const bytes = module.byteLength.toLocaleString("en");
  const size = `This is version ${version}. The module has ${bytes} bytes, and everybody who builds it gets the same. `;
  fill(
      root, make("h1", {}, "What this page is"), make("p", {}, GAMES), make("p", {}, checked),
      make("h2", {}, "What is proved"), list(PROVED), make("h2", {}, "What is trusted"), list(TRUSTED),
      make("h2", {}, "The module"), make("p", {}, size, "Its SHA-256 is ", sum, "."),
      make("h2", {}, "Where it comes from"), sources(), make("h2", {}, "Its licence"), licence());
  fill(sum, await sumOfBytes(module));
}

function sources() {
  return make(
      "p", {}, "T. E. Plambeck and A. N. Siegel, ", make("cite", {}, "Misère quotients for impartial games"),
      ", Journal of Combinatorial Theory A 115 (2008). A. N. Siegel, ", make("cite", {}, "Combinatorial Game Theory"),
      ", chapter V. The names of games are those of Berlekamp, Conway and Guy, ", make("cite", {}, "Winning Ways"),
      ".");
}

/** (A copy of the page has this text with it.) */
function licence() {
  const text = document.getElementById("licence")?.textContent ?? "";
  return [
    make("p", {}, "MIT or Apache 2.0, as you choose. You may use, change and pass on this page under either of them."),
    make("details", {}, make("summary", {}, "The MIT licence"), make("pre", {class: "licence"}, text.trim())),
  ];
}

/** @param {ArrayBuffer} bytes */
async function sumOfBytes(bytes) {
  if (!globalThis.crypto?.subtle) return "not computed by this browser for a page from this place";
  const sum = new Uint8Array(await crypto.subtle.digest("SHA-256", bytes));
  return [...sum].map((byte) => byte.toString(16).padStart(2, "0")).join("");
}
