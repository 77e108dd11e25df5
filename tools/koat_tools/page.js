"use strict";
// The values of bounds at the inputs. From 2^127 on they aren't told exactly.
// What is below a root or in a quotient is told exactly up to a number whose roots and quotients are above that, too.
const CAP = 2n ** 127n, WIDE = 2n ** 4096n;
const least = (one, other) => (one < other ? one : other);
const greatest = (one, other) => (one > other ? one : other);

function power(base, exponent) {
  if (base < 2n) return exponent === 0n ? 1n : base;
  return exponent >= 4096n ? WIDE : base ** exponent;
}

// The whole square root, by Newton's method from above.
function root(number) {
  if (number < 2n) return number;
  let near = 1n << BigInt((number.toString(2).length + 1) >> 1);
  for (;;) {
    const next = (near + number / near) >> 1n;
    if (next >= near) return near;
    near = next;
  }
}

// A polynomial of the inputs, or 0 where it is negative.
function positivePart(terms, inputs) {
  const values = terms.map((term) => term.names.reduce((product, name) => product * inputs[name], BigInt(term.coefficient)));
  return greatest(values.reduce((sum, part) => sum + part, 0n), 0n);
}

const KINDS = {
  constant: (tree) => BigInt(tree.value),
  input: (tree, inputs) => (inputs[tree.name] < 0n ? -inputs[tree.name] : inputs[tree.name]),
  power: (tree, inputs) => power(BigInt(tree.base), wide(tree.exponent, inputs)),
  part: (tree, inputs) => positivePart(tree.terms, inputs),
  quotient: (tree, inputs) => wide(tree.of, inputs) / BigInt(tree.divisor),
  root: (tree, inputs) => root(wide(tree.of, inputs)),
  sum: (tree, inputs) => tree.parts.reduce((sum, part) => sum + wide(part, inputs), 0n),
  product: (tree, inputs) => tree.parts.reduce((product, part) => least(product * wide(part, inputs), WIDE), 1n),
  maximum: (tree, inputs) => tree.parts.map((part) => wide(part, inputs)).reduce(greatest),
  minimum: (tree, inputs) => tree.parts.map((part) => wide(part, inputs)).reduce(least),
};

const wide = (tree, inputs) => least(KINDS[tree.kind](tree, inputs), WIDE);

function value(tree, inputs) {
  return least(wide(tree, inputs), CAP);
}

const written = (number) => (number >= CAP ? "2^127 or more" : number.toLocaleString("en"));

// The inputs by name; nothing where a field holds no whole number.
function inputs() {
  const found = Object.create(null);
  for (const field of document.querySelectorAll("input[type=number]")) {
    if (!/^-?\d+$/.test(field.value)) return null;
    found[field.dataset.input] = BigInt(field.value);
  }
  return found;
}

const cells = [...document.querySelectorAll("[data-tree]")].map((cell) => [cell, JSON.parse(cell.dataset.tree)]);

function show() {
  const given = inputs();
  for (const [cell, tree] of cells) cell.textContent = given ? written(value(tree, given)) : "?";
}

// A slider and a field of one input follow each other.
document.addEventListener("input", (event) => {
  const name = event.target.dataset.input;
  if (name === undefined) return;
  for (const other of document.querySelectorAll("input[data-input]")) {
    if (other.dataset.input === name && other !== event.target) other.value = event.target.value;
  }
  show();
});

// All that is folded is printed.
let folded = [];
addEventListener("beforeprint", () => {
  folded = [...document.querySelectorAll("details:not([open])")];
  for (const one of folded) one.open = true;
});
addEventListener("afterprint", () => {
  for (const one of folded) one.open = false;
});
document.addEventListener("click", (event) => {
  const fold = event.target.dataset.fold;
  if (fold) for (const one of document.querySelectorAll(".rule details")) one.open = fold === "open";
});
// What a link leads to gets the focus, so that a screen reader goes on there.
addEventListener("hashchange", () => {
  const one = document.getElementById(location.hash.slice(1));
  if (one && one.tabIndex === -1) one.focus({ preventScroll: true });
});

const run = document.getElementById("steps") ? JSON.parse(document.getElementById("steps").textContent) : null;
const slider = document.getElementById("step");

// How often each rule occurs in the first steps of the run.
function counted(steps, count) {
  const found = new Map();
  for (const [rule] of steps.slice(0, count)) found.set(rule, (found.get(rule) ?? 0) + 1);
  return found;
}

function named(symbol, values) {
  return values.map((value, at) => `${run.names[symbol][at]} = ${value}`).join(", ");
}

// Shows the run after so many steps: where it is, and what is counted so far.
function showStep(count) {
  slider.value = count;
  const [rule, symbol, values] = count ? run.steps[count - 1] : [null, run.start, run.values];
  const by = rule === null ? "the start" : `by rule ${rule}`;
  const place = values.length ? `${symbol}, ${named(symbol, values)}` : symbol;
  document.getElementById("state").textContent = `step ${count} of ${run.steps.length}, ${by}: at ${place}`;
  const found = counted(run.steps, count);
  run.trees.forEach((_, at) => {
    const row = document.getElementById(`step-rule-${at + 1}`);
    row.querySelector(".uses").textContent = found.get(at + 1) ?? 0;
    row.classList.toggle("now", at + 1 === rule);
  });
  const spent = run.costs ? run.costs.slice(0, count).reduce((sum, cost) => sum + BigInt(cost), 0n) : BigInt(count);
  document.querySelector("#step-total .uses").textContent = written(spent);
  for (const one of document.querySelectorAll(".picture .now")) one.classList.remove("now");
  if (rule !== null) document.getElementById(`edge-${rule}`)?.classList.add("now");
  for (const node of document.querySelectorAll(".picture .node")) {
    if (node.querySelector("text")?.textContent === symbol) node.classList.add("now");
  }
}

const wayTo = {
  first: () => 0, back: (at) => Math.max(at - 1, 0), on: (at) => Math.min(at + 1, run.steps.length),
  last: () => run.steps.length,
};

if (run) {
  slider.max = run.steps.length;
  const given = Object.fromEntries(Object.entries(run.inputs).map(([name, text]) => [name, BigInt(text)]));
  const most = (tree) => (tree === null ? "unknown" : written(value(tree, given)));
  run.trees.forEach((tree, at) => {
    document.querySelector(`#step-rule-${at + 1} .most`).textContent = most(tree);
  });
  document.querySelector("#step-total .most").textContent = most(run.total);
  slider.addEventListener("input", () => showStep(Number(slider.value)));
  const section = document.querySelector(".run");
  section.addEventListener("click", (event) => {
    const way = wayTo[event.target.dataset.step];
    if (way) showStep(way(Number(slider.value)));
  });
  section.addEventListener("keydown", (event) => {
    const way = { ArrowLeft: "back", ArrowRight: "on", Home: "first", End: "last" }[event.key];
    if (!way) return;
    event.preventDefault();
    showStep(wayTo[way](Number(slider.value)));
  });
  showStep(0);
}

const picture = document.querySelector(".picture");
const fit = document.getElementById("fit");

// What is a little too wide is fitted; what would become unreadable is scrolled, from where runs start.
function place() {
  const share = natural / picture.clientWidth;
  fit.parentElement.hidden = share <= 1;
  if (!fit.dataset.chosen) fit.checked = share > 1 && share < 1.6;
  picture.classList.toggle("fitted", fit.checked);
  const frame = picture.getBoundingClientRect();
  const start = picture.querySelector(".node.start").getBoundingClientRect();
  picture.scrollLeft += start.left + start.width / 2 - frame.left - frame.width / 2;
}

// The width of the picture and its margins, as long as nothing is fitted.
const natural = picture ? picture.querySelector("svg").getBoundingClientRect().width + 16 : 0;
if (picture) {
  fit.addEventListener("change", () => {
    fit.dataset.chosen = "yes";
    place();
  });
  addEventListener("resize", place);
  picture.addEventListener("click", (event) => {
    const edge = event.target.closest(".edge");
    if (edge && !event.target.closest("a")) location.hash = "rule-" + edge.id.slice("edge-".length);
  });
  place();
}
show();
