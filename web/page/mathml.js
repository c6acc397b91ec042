// Words and relations as MathML.

const MATHML = "http://www.w3.org/1998/Math/MathML";

/**
 * @param {string} name
 * @param {(Node | string)[]} children
 */
function node(name, ...children) {
  const element = document.createElementNS(MATHML, name);
  element.append(...children);
  return element;
}

/**
 * The factors of a word such as `ab^2`.
 * @param {string} text
 */
function factors(text) {
  return [...text.matchAll(/([a-z]|\d+)(?:\^(\d+))?/g)].map(([, base, power]) => {
    const symbol = node(/\d/.test(base) ? "mn" : "mi", base);
    return power ? node("msup", symbol, node("mn", power)) : symbol;
  });
}

/**
 * A word, such as `ab^2`; or an element without one, such as `x5`.
 * @param {string} text
 */
export function word(text) {
  const [, number] = text.match(/^x(\d+)$/) ?? [];
  return number ? node("math", node("msub", node("mi", "x"), node("mn", number))) : node("math", ...factors(text));
}

/**
 * A relation, such as `a^2=1`.
 * @param {string} text
 */
export function relation(text) {
  const [left, right] = text.split("=");
  return node("math", ...factors(left), node("mo", "="), ...factors(right));
}

/**
 * A script letter, with the last heap of a partial quotient as its index, and the code that it is of.
 * @param {string} letter
 * @param {number | null} last
 * @param {string} [code]
 */
export function ofGame(letter, last, code) {
  const symbol = node("mi", letter);
  const named = last === null ? symbol : node("msub", symbol, node("mn", String(last)));
  return node("math", named, ...(code ? [bracket("("), node("mn", code), bracket(")")] : []));
}

/** @param {string} sign */
function bracket(sign) {
  const element = node("mo", sign);
  for (const [name, value] of [["lspace", "0"], ["rspace", "0"], ["stretchy", "false"]])
    element.setAttribute(name, value);
  return element;
}
