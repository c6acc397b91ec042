// Texts that are saved as files.

import {make} from "./dom.js";

/**
 * @param {string} text
 * @param {string} name
 */
export function save(text, name) {
  const place = URL.createObjectURL(new Blob([text], {type: "application/octet-stream"}));
  make("a", {href: place, download: name}).click();
  setTimeout(() => URL.revokeObjectURL(place), 1000);
}
