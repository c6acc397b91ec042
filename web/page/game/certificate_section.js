// The certificate and the description, to copy and to save.

import {lastHeap} from "../certificate.js";
import {fill, make} from "../dom.js";
import {save} from "../saving.js";

/** @typedef {import("./present.js").Game} Game */
/** @typedef {import("../main.js").Page} Page */

/** The forms of a description, and what copies them. */
const FORMS = {
  description: "Copy the description",
  latex: "for LaTeX",
  json: "as JSON",
  singular: "for Singular",
  gap: "for GAP"
};
/** Those of a presentation. */
const PRESENTED_FORMS = /** @type {const} */ (["description", "latex", "json"]);

/**
 * @param {Page} page
 * @param {Game} game
 */
export function certificateSection(page, {bytes, certificate, description}) {
  const described = (/** @type {string} */ output) => async () =>
      (await page.prover.ask("describe", bytes, {output})).answer;
  /** @type {Form[]} */
  const forms = Object.entries(description ? FORMS : {}).map(([output, name]) => [output, name, described(output)]);
  const last = lastHeap(certificate);
  const file = `${certificate.code}${last === null ? "" : `_heaps_${last}`}.mqc`;
  return keptSection(certificate.text, file, forms);
}

/**
 * @param {import("../presented/fields.js").Presented} presented
 * @param {(output: string) => Promise<string>} describe
 */
export function presentedSection({text, code, heaps, period, leftOut}, describe) {
  const without = leftOut.length ? `_without_${leftOut.join("_")}` : "";
  /** @type {Form[]} */
  const forms = PRESENTED_FORMS.map((output) => [output, FORMS[output], () => describe(output)]);
  return keptSection(text, `${code}${period ? "" : `_heaps_${heaps}${without}`}.mqp`, forms);
}

/** @param {import("../whole/fields.js").Whole} whole */
export function wholeSection({text, code}) {
  return keptSection(text, `${code}.mqw`, []);
}

/**
 * @typedef {[string, string, () => Promise<string>]} Form what else is copied: its name, that of its button, and the
 *     text
 */

/**
 * @param {string} text the certificate
 * @param {string} file how its file is called
 * @param {Form[]} forms
 */
function keptSection(text, file, forms) {
  const said = make("span", {role: "status", class: "soft"});
  const copying = (/** @type {() => Promise<string>} */ textOf) => async () => {
    try {
      await copy(await textOf());
      fill(said, "Copied.");
    } catch (failure) {
      fill(said, `Not copied: ${/** @type {Error} */ (failure).message}.`);
    }
  };
  const button = (/** @type {string} */ id, /** @type {string} */ name, /** @type {() => void} */ onclick) =>
      make("button", {type: "button", id, onclick}, name);
  const buttons = [
    button("copy", "Copy", copying(async () => text)),
    button("save", "Save", () => save(text, file)),
    forms.map(([output, name, textOf]) => button(`copy-${output}`, name, copying(textOf))),
  ];
  return make(
      "section", {class: "screen"}, make("h2", {}, "The certificate"), make("div", {class: "row"}, buttons, said),
      make(
          "details", {}, make("summary", {}, `${text.length} bytes`),
          make("textarea", {readonly: true, "aria-label": "The certificate"}, text)));
}

/**
 * (A page that isn't from a server may have no clipboard; there a selected text is copied.)
 * @param {string} text
 */
async function copy(text) {
  if (navigator.clipboard) {
    try {
      return await navigator.clipboard.writeText(text);
    } catch {
      // by a selection then
    }
  }
  const field = make("textarea", {class: "aside"}, text);
  document.body.append(field);
  field.select();
  const isDone = document.execCommand("copy");
  field.remove();
  if (!isDone) throw new Error("the browser doesn’t let it copy");
}
