"use strict";
const one = (name) => document.getElementById(name);
const text = one("text"), back = one("back"), lines = one("lines"), said = one("said"), beside = one("beside");
const examples = JSON.parse(one("texts").textContent);
// How long nothing is typed until koat is asked, in milliseconds; and up to which length a text has colours.
const PAUSE = 700, MOST_COLOURED = 60000;
let place = null, running = null, waiting = null;

// The place of a byte among the characters of a text.
function characterOf(value, byte) {
  const bytes = new TextEncoder().encode(value).slice(0, byte);
  return new TextDecoder().decode(bytes).length;
}

const TOKEN = new RegExp([
  /(\b(?:GOAL|COMPLEXITY|STARTTERM|FUNCTIONSYMBOLS|VAR|RULES|Com_1|TRUE|true)\b)/,
  /([A-Za-z_$][\w$'.]*(?=\s*\())/, /([A-Za-z_$][\w$'.]*)/, /(\d+)/,
  /(->|-\{|\}>|:\|:|&&|\/\\|>=|<=|==|[<>=[\]])/,
].map((it) => it.source).join("|"), "y");
const KINDS = [null, "word", "symbol", null, "number", "sign"];

// Where a comment ends that begins at this bracket, or 0 where none begins there.
function commentEnd(value, start) {
  const head = /\(\s*COMMENT\b/y;
  head.lastIndex = start;
  if (!head.test(value)) return 0;
  let depth = 0;
  for (let at = start; at < value.length; at += 1) {
    depth += value[at] === "(" ? 1 : value[at] === ")" ? -1 : 0;
    if (depth === 0) return at + 1;
  }
  return value.length;
}

// The parts of a text, each with its kind.
function* parts(value) {
  let at = 0, plain = 0;
  while (at < value.length) {
    const end = value[at] === "(" ? commentEnd(value, at) : 0;
    TOKEN.lastIndex = at;
    const match = end ? null : TOKEN.exec(value);
    const kind = end ? "comment" : match && KINDS[match.findIndex((it, number) => number > 0 && it !== undefined)];
    const next = end || (match ? TOKEN.lastIndex : at + 1);
    if (kind) {
      if (plain < at) yield [null, plain, at];
      yield [kind, at, next];
      plain = next;
    }
    at = next;
  }
  if (plain < at) yield [null, plain, at];
}

// Puts a part of a text behind the editor, cut where a mark begins or ends.
function put(value, kind, start, end, marks) {
  const cuts = [start, ...marks.flatMap(([from, to]) => [from, to]).filter((it) => it > start && it < end), end];
  cuts.sort((first, second) => first - second);
  for (let at = 0; at + 1 < cuts.length; at += 1) {
    let element = document.createTextNode(value.slice(cuts[at], cuts[at + 1]));
    if (kind) {
      const span = document.createElement("span");
      span.className = kind;
      span.append(element);
      element = span;
    }
    for (const [from, to, name] of marks) {
      if (cuts[at] >= from && cuts[at + 1] <= to) {
        const marked = document.createElement("mark");
        if (name) marked.className = name;
        marked.append(element);
        element = marked;
        break;
      }
    }
    back.append(element);
  }
}

// The character of a refusal, and the line around it.
function marksOf(value) {
  if (place === null) return [];
  const start = value.lastIndexOf("\n", place - 1) + 1;
  const end = value.indexOf("\n", place) < 0 ? value.length : value.indexOf("\n", place);
  return [[place, place + 1, "here"], [start, end, ""]];
}

// Shows the text with its colours, its marks and the numbers of its lines.
function draw() {
  const value = text.value, isColoured = value.length <= MOST_COLOURED;
  document.querySelector(".editor").classList.toggle("coloured", isColoured);
  back.textContent = "";
  if (isColoured) {
    const ended = place !== null && place >= value.length ? value + " " : value;
    const marks = marksOf(ended);
    for (const [kind, start, end] of parts(ended)) put(ended, kind, start, end, marks);
    back.append("\n");
  }
  const count = value.split("\n").length;
  lines.textContent = Array.from({ length: count }, (_, at) => at + 1).join("\n") + "\n\n";
  scroll();
}

function scroll() {
  back.scrollTop = text.scrollTop;
  back.scrollLeft = text.scrollLeft;
  lines.scrollTop = text.scrollTop;
}

// Shows a page beside the editor, as soon as it is there whole.
function turn(name) {
  const frame = document.createElement("iframe");
  frame.setAttribute("sandbox", "allow-scripts");
  frame.title = "what koat says";
  frame.className = "coming";
  frame.src = `page/${name}`;
  frame.addEventListener("load", () => {
    for (const other of [...beside.children]) if (other !== frame) other.remove();
    frame.className = "";
  });
  beside.append(frame);
  one("alone").href = `page/${name}`;
  one("alone").hidden = false;
}

function show(told) {
  place = null;
  if (told.refusal) {
    const { line, column, hint, kind, byte } = told.refusal;
    said.textContent = line ? `Line ${line}, column ${column}: ${hint} (${kind})` : hint;
    if (byte !== undefined) place = characterOf(text.value, byte);
  } else if (told.page) {
    said.textContent = `${told.verdict}: ${told.competition}`;
    turn(told.page);
  } else {
    said.textContent = told.problem;
  }
  one("there").hidden = place === null;
  beside.classList.toggle("earlier", !told.page);
  draw();
}

async function ask() {
  clearTimeout(waiting);
  if (running) running.abort();
  running = new AbortController();
  said.textContent = "koat is at it ..";
  try {
    const answer = await fetch(`answer?by=${one("by").value}`, {
      method: "POST", body: text.value, headers: { "X-Koat": "1", "Content-Type": "text/plain" }, signal: running.signal,
    });
    show(answer.ok ? await answer.json() : { problem: (await answer.text()).trim() });
  } catch (fault) {
    if (fault.name !== "AbortError") show({ problem: "the server doesn't answer: is `show serve` still running?" });
  }
}

const encoded = (value) => {
  const bytes = new TextEncoder().encode(value);
  let told = "";
  for (const byte of bytes) told += String.fromCharCode(byte);
  return btoa(told).replaceAll("+", "-").replaceAll("/", "_").replaceAll("=", "");
};
function decoded(value) {
  const bytes = atob(value.replaceAll("-", "+").replaceAll("_", "/"));
  return new TextDecoder().decode(Uint8Array.from(bytes, (it) => it.charCodeAt(0)));
}

// Takes the program of the address, where it has one.
function read() {
  if (location.hash.length < 2) return;
  try {
    text.value = decoded(location.hash.slice(1));
  } catch {
    said.textContent = "the link's program can't be read";
  }
}

function changed() {
  place = null;
  one("there").hidden = true;
  draw();
}

one("go").addEventListener("click", ask);
one("by").addEventListener("change", ask);
one("example").addEventListener("change", (event) => {
  if (!(event.target.value in examples)) return;
  text.value = examples[event.target.value];
  text.scrollTop = 0;
  changed();
  ask();
});
one("there").addEventListener("click", () => {
  text.focus();
  text.setSelectionRange(place, place + 1);
});
one("link").addEventListener("click", () => {
  if (text.value.length > 50000) {
    said.textContent = "this program is too long for a link";
    return;
  }
  history.replaceState(null, "", "#" + encoded(text.value));
  navigator.clipboard?.writeText(location.href).catch(() => {});
  said.textContent = "The address of this page has the program in it now.";
});
text.addEventListener("input", () => {
  changed();
  clearTimeout(waiting);
  if (one("typing").checked) waiting = setTimeout(ask, PAUSE);
});
text.addEventListener("scroll", scroll);
text.addEventListener("keydown", (event) => {
  if (event.key === "Enter" && (event.ctrlKey || event.metaKey)) ask();
});
addEventListener("hashchange", () => {
  read();
  changed();
  ask();
});
read();
draw();
ask();
