// A certificate from elsewhere: pasted, dropped, or chosen as a file.

import {MOST} from "../../calls.js";
import {fill, labelled, make} from "../dom.js";
import {present} from "../game/present.js";

/** @typedef {import("../main.js").Page} Page */

/** A certificate to try, and how to spoil it. */
const [SAMPLE, SOUND, SPOILT] = ["0.33", "phi 1 2 0", "phi 1 2 2"];
/** Of longer files the text isn't shown. */
const MOST_SHOWN = 1 << 17;

const HOW = "The proved checker says yes or no, and believes nothing. The certificate stays on this machine. " +
    "Of a file each byte counts; behind a pasted text the last line end is put where it is missing.";

/**
 * @param {Page} page
 * @param {HTMLElement} root
 */
export function checkView(page, root) {
  const out = make("div", {class: "told"});
  const text = make("textarea", {id: "text", spellcheck: "false", placeholder: "mqc 1\ncode 0.33\n…"});
  // (what is pasted has lost what a text area doesn't keep: its line ends, and often the last of them)
  const judge = () => {
    const pasted = text.value.endsWith("\n") ? text.value : `${text.value}\n`;
    return present(page, out, new TextEncoder().encode(pasted));
  };
  const file = make("input", {type: "file", id: "file", onchange: () => file.files?.[0] && take(file.files[0])});
  const take = async (/** @type {File} */ from) => {
    // (no certificate is longer, so that of a longer file the beginning is refused as the whole is)
    const bytes = new Uint8Array(await from.slice(0, MOST + 1).arrayBuffer());
    text.value = bytes.length <= MOST_SHOWN ? new TextDecoder().decode(bytes) : "";
    file.value = "";
    await present(page, out, bytes);
  };
  const sample = (/** @type {string} */ heaps) => () => {
    text.value = (page.atlas.text(SAMPLE) ?? "").replace(SOUND, heaps);
    return judge();
  };
  const form = make(
      "form", {class: "drop"}, labelled("The certificate", text),
      make(
          "div", {class: "row"}, make("button", {id: "judge"}, "Check"),
          labelled("or a file, which may also be dropped here", file)),
      make(
          "div", {class: "row"}, make("span", {class: "soft"}, "Or try"),
          make("button", {type: "button", id: "sound", onclick: sample(SOUND)}, `that of ${SAMPLE}`),
          make("button", {type: "button", id: "spoilt", onclick: sample(SPOILT)}, "the same with a wrong heap")));
  form.addEventListener("submit", (event) => {
    event.preventDefault();
    return judge();
  });
  acceptDrops(form, take);
  fill(root, make("h1", {}, "Check a certificate"), make("p", {}, HOW), form, out);
}

/**
 * @param {HTMLElement} place
 * @param {(file: File) => void} take
 */
function acceptDrops(place, take) {
  place.addEventListener("dragover", (event) => {
    event.preventDefault();
    place.classList.add("over");
  });
  place.addEventListener("dragleave", () => place.classList.remove("over"));
  place.addEventListener("drop", (event) => {
    event.preventDefault();
    place.classList.remove("over");
    const file = event.dataTransfer?.files[0];
    if (file) take(file);
  });
}
