// The rule in the header field Plural-Forms ("Plural forms" in docs/FORMATS.md), read to tell for which numbers each form is.
// The office has tested the rule at 0, 1, .., 999 when the language came in, so no value faults there.

const FIELD = /^Plural-Forms:[ \t]*nplurals *= *(\d+) *; *plural *= *([^;\n]*)/m;
const TOKENS = /\d+|n|\|\||&&|[=!<>]=|[-+*/%<>!?:()]/g;
const TRIED = 1000;

const truth = (value) => (value ? 1n : 0n);
const OPERATORS = [
  { "||": (a, b) => (n) => truth(a(n) || b(n)) },
  { "&&": (a, b) => (n) => truth(a(n) && b(n)) },
  { "==": (a, b) => (n) => truth(a(n) === b(n)), "!=": (a, b) => (n) => truth(a(n) !== b(n)) },
  {
    "<": (a, b) => (n) => truth(a(n) < b(n)), ">": (a, b) => (n) => truth(a(n) > b(n)),
    "<=": (a, b) => (n) => truth(a(n) <= b(n)), ">=": (a, b) => (n) => truth(a(n) >= b(n)),
  },
  { "+": (a, b) => (n) => a(n) + b(n), "-": (a, b) => (n) => a(n) - b(n) },
  { "*": (a, b) => (n) => a(n) * b(n), "/": (a, b) => (n) => a(n) / b(n), "%": (a, b) => (n) => a(n) % b(n) },
];

class Reader {
  #tokens;

  constructor(text) {
    this.#tokens = text.match(TOKENS) ?? [];
    if (this.#tokens.join("") !== text.replaceAll(" ", "")) throw new SyntaxError("a character of no token");
  }

  // The whole rule, as a function of n.
  rule() {
    const rule = this.choice();
    if (this.#tokens.length > 0) throw new SyntaxError("something behind the rule");
    return rule;
  }

  #next(wanted) {
    const token = this.#tokens.shift();
    if (wanted !== undefined && token !== wanted) throw new SyntaxError(`${wanted} wanted`);
    return token;
  }

  choice() {
    const condition = this.#level(0);
    if (this.#tokens[0] !== "?") return condition;
    this.#next("?");
    const first = this.choice();
    this.#next(":");
    const second = this.choice();
    return (n) => (condition(n) ? first(n) : second(n));
  }

  #level(depth) {
    if (depth === OPERATORS.length) return this.#unary();
    let left = this.#level(depth + 1);
    while (this.#tokens[0] in OPERATORS[depth]) {
      const operator = OPERATORS[depth][this.#next()];
      left = operator(left, this.#level(depth + 1));
    }
    return left;
  }

  #unary() {
    const token = this.#next();
    if (token === "!") {
      const inner = this.#unary();
      return (n) => truth(!inner(n));
    }
    if (token === "(") {
      const inner = this.choice();
      this.#next(")");
      return inner;
    }
    if (token === "n") return (n) => n;
    const value = BigInt(token);
    return () => value;
  }
}

// The rule in a header as a function that gives a number's form, with how many forms there are; null where there is none that is read.
function ruleIn(header) {
  const found = FIELD.exec(header);
  if (!found) return null;
  try {
    return { count: Number(found[1]), rule: new Reader(found[2]).rule() };
  } catch {
    return null;
  }
}

// The index of the form that a number takes, as a function.
export function indexIn(header) {
  const found = ruleIn(header);
  return found && ((n) => Number(found.rule(BigInt(n))));
}

// For each form the numbers below 1,000 that take it; null where the header has no rule that is read, or one that faults.
export function numbersOfForms(header) {
  const found = ruleIn(header);
  if (!found) return null;
  const numbers = Array.from({ length: found.count }, () => []);
  try {
    for (let n = 0; n < TRIED; n += 1) numbers[Number(found.rule(BigInt(n)))].push(n);
    return numbers;
  } catch {
    return null;
  }
}
