// What a text is that is no certificate, and which command is for it.

import {isCode} from "./codes.js";
import {lettersOf} from "./letters.js";

/** So many bytes are looked at. */
const LOOKED_AT = 4096;

const LINE_ENDS = "The lines end with CR and LF, as Windows writes them. A certificate’s lines end with LF alone: " +
    "tr -d '\\r' makes one of it.";

const WITH_TRACKS = "This is a certificate with tracks, as misere made them up to 0.6: misere solve CODE --infinite " +
    "finds a presentation.";

/** The first bytes of files that are packed. (Each byte is a letter here.) */
const PACKED = /^(\x1f\x8b|\xfd7zXZ|BZh|PK\x03\x04|\x28\xb5\x2f\xfd)/;

/** @type {[RegExp, string][]} Of several that fit the first one is told. */
const KINDS = [
  [/^$/, "There is nothing in it."],
  [PACKED, "It is packed: unpack it first."],
  [/^(\xff\xfe|\xfe\xff)/, "The text has two bytes a letter (UTF-16). A certificate is plain ASCII."],
  [/^\xef\xbb\xbf/, "The text begins with a byte order mark, as some editors write it. A certificate has none."],
  [/^mqi /, WITH_TRACKS],
  [/^table /, "This is a quotient by its table: misere certify FILE makes a certificate of it."],
  [/^\s*\{[^]*"entries"/, "This is a catalogue: misere catalogue FILE checks all of its certificates."],
  [/^\s*[{[]/, "This is JSON, and a certificate is a text of lines. It may be what misere prints with --json."],
  [/^Q[_(\d]/, "This is a description, as misere describe prints it. It is made from a certificate."],
  [/^(yes|no|infinite|gave up|refused) /, "This is an answer of the program, and no certificate."],
  [/^open \d+ /, "This is a script of the desk: misere desk FILE runs it."],
  [/^[^]*\r\n/, LINE_ENDS],
];

/**
 * What the bytes are, in a sentence or two; the empty text where they may be a certificate.
 * @param {Uint8Array} bytes
 */
export function kindOfText(bytes) {
  const begin = lettersOf(bytes.subarray(0, LOOKED_AT));
  if (isCode(begin.trim())) return "This is the code of a game: Find looks for its quotient.";
  const [, told = ""] = KINDS.find(([pattern]) => pattern.test(begin)) ?? [];
  return told;
}
