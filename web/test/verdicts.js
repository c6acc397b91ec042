/** Verdicts in lines, of the module and of the program. */
import {Refused} from "../calls.js";

import {fileOf, printed} from "./setup.js";

/**
 * The lines of a refusal, as the program prints them but for the outcomes at a position where the rule fails.
 * @param {unknown} stop
 */
export function linesOfRefusal(stop) {
  if (!(stop instanceof Refused)) throw stop;
  const [number, name] = stop.message.split(" ");
  return [`no ${number} ${name}`, ...(stop.heaps ? [`rule fails at ${stop.heaps.join(" ") || "0"}`] : [])];
}

/**
 * What a command prints of bytes, in lines, without these outcomes.
 * @param {string} command
 * @param {Uint8Array} bytes
 * @param {string} [name] that of the file
 */
export function verdictPrinted(command, bytes, name) {
  return printed(command, fileOf(bytes, name)).split("\n").filter((line) => line && !line.startsWith("outcome "));
}
