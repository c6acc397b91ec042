// Before the verdict on a text that is no certificate: what it is.

import {make} from "../dom.js";
import {kindOfText} from "../text_kinds.js";

/** @param {Uint8Array} bytes */
export function kindNote(bytes) {
  const kind = kindOfText(bytes);
  return kind && make("p", {class: "partial", id: "kind"}, kind);
}
