"use strict";
// Draws what the library answers, and decides nothing: the text goes to stipeharbor_read, its path to stipeharbor_measure and stipeharbor_tessellate, and what these leave in memory becomes SVG.

const VERB_LIMIT = 65536;
const TEXT_LIMIT = 1048576;
// More numbers than these cannot be read in a picture.
const NUMBERED = 2000;

const WORDS = {
  1: "an option is outside its range: the width is 1/256 to 16384, the limit 1 to 1024, the merge range 1/128 to 1, the detail 0 to 6, dashes are up to 16 numbers of 1/4 to 32768, and their offset is 0 to 32768",
  8: "the path text is longer than 1 MiB",
  9: "from here on it is no path text",
  10: "the number that begins here is beyond 32768, or leads there",
  11: "the path has more than 65536 verbs (begins, lines and ends)",
  26: "the dashes cut the path at more than 65536 points in all",
};

const $ = (id) => document.getElementById(id);
const bytes = Uint8Array.from(atob(LIBRARY), (letter) => letter.charCodeAt(0));
const library = new WebAssembly.Instance(new WebAssembly.Module(bytes)).exports;

// Places in the library's memory for lists of so many bytes each, aligned for every type.
function lend(...sizes) {
  let at = library.__heap_base.value;
  const places = sizes.map((size) => {
    const place = at;
    at += Math.ceil((size + 1) / 16) * 16;
    return place;
  });
  const missing = at - library.memory.buffer.byteLength;
  if (missing > 0) library.memory.grow(Math.ceil(missing / 65536));
  return places;
}

const list = (Kind, place, length) => new Kind(library.memory.buffer, place, length);

// The library's answer to a text: a refusal with its number and place, or the path and its mesh.
function answerTo(text, options) {
  const encoded = new TextEncoder().encode(text).subarray(0, TEXT_LIMIT + 1);
  const rooms = [12, encoded.length, VERB_LIMIT, 8 * VERB_LIMIT, 4 * options.dashes.length];
  const [answer, source, verbs, coords, dashes] = lend(...rooms);
  list(Uint8Array, source, encoded.length).set(encoded);
  list(Float32Array, dashes, options.dashes.length).set(options.dashes);
  const told = () => list(Uint32Array, answer, 3);
  let number = library.stipeharbor_read(source, encoded.length, verbs, VERB_LIMIT, coords, 2 * VERB_LIMIT, answer, 3);
  if (number !== 0) return { number, place: told()[0], encoded };
  const [, verbCount, coordCount] = told();
  const stroke = [verbs, verbCount, coords, coordCount, options.width, options.limit, options.join, options.cap, options.merge, options.detail, options.offset, dashes, options.dashes.length];
  number = library.stipeharbor_measure(...stroke, answer, 3);
  const [place, v, t] = told();
  if (number !== 0) return { number, place, encoded };
  const [, , , , , vertices, sources, triangles] = lend(...rooms, 20 * v, 4 * v, 12 * t);
  number = library.stipeharbor_tessellate(...stroke, vertices, 5 * v, sources, v, triangles, 3 * t, answer, 3);
  if (number !== 0) return { number, place: told()[0], encoded };
  return {
    number,
    verbs: list(Uint8Array, verbs, verbCount),
    coords: list(Float32Array, coords, coordCount),
    vertices: list(Float32Array, vertices, 5 * v),
    sources: list(Uint32Array, sources, v),
    triangles: list(Uint32Array, triangles, 3 * t),
  };
}

function element(name, attributes, words) {
  const made = document.createElementNS("http://www.w3.org/2000/svg", name);
  for (const [key, value] of Object.entries(attributes)) made.setAttribute(key, value);
  if (words !== undefined) made.textContent = words;
  return made;
}

const spot = (floats, at) => floats[at] + " " + floats[at + 1];

function outline({ verbs, coords }) {
  let at = 0, data = "";
  for (const verb of verbs) {
    if (verb <= 1) {
      data += "ML"[verb] + spot(coords, at);
      at += 2;
    } else if (verb === 3) data += "Z";
  }
  return data;
}

// All triangles as one path. Those that are turned over are drawn the other way round, so that no two take each other's colour away.
function shapes({ vertices, triangles }) {
  const data = [];
  for (let i = 0; i < triangles.length; i += 3) {
    const [a, b, c] = [5 * triangles[i], 5 * triangles[i + 1], 5 * triangles[i + 2]];
    const turn = (vertices[b] - vertices[a]) * (vertices[c + 1] - vertices[a + 1]) - (vertices[b + 1] - vertices[a + 1]) * (vertices[c] - vertices[a]);
    data.push("M" + spot(vertices, a) + "L" + spot(vertices, turn < 0 ? c : b) + "L" + spot(vertices, turn < 0 ? b : c) + "Z");
  }
  return data.join("");
}

function box(got) {
  let [left, top, right, bottom] = [Infinity, Infinity, -Infinity, -Infinity];
  const take = (x, y) => {
    [left, right] = [Math.min(left, x), Math.max(right, x)];
    [top, bottom] = [Math.min(top, y), Math.max(bottom, y)];
  };
  for (let i = 0; i < got.coords.length; i += 2) take(got.coords[i], got.coords[i + 1]);
  for (let i = 0; i < got.vertices.length; i += 5) take(got.vertices[i], got.vertices[i + 1]);
  if (left > right) [left, top, right, bottom] = [0, 0, 1, 1];
  const margin = 0.05 * Math.max(right - left, bottom - top, 1);
  return [left - margin, top - margin, right - left + 2 * margin, bottom - top + 2 * margin];
}

function draw(got) {
  const picture = $("picture");
  picture.replaceChildren();
  if (got.number !== 0) return;
  const view = box(got);
  picture.setAttribute("viewBox", view.join(" "));
  const pixel = Math.max(view[2] / (picture.clientWidth || 600), view[3] / (picture.clientHeight || 600));
  picture.append(element("path", {
    id: "stripe", d: shapes(got), "stroke-linejoin": "round", "stroke-width": 0.7 * pixel,
    fill: $("fill").checked ? "#f2b134" : "none", "fill-opacity": 0.6, stroke: $("wire").checked ? "#7a5200" : "none",
  }));
  if ($("path").checked) picture.append(element("path", { id: "outline", d: outline(got), fill: "none", stroke: "#14508c", "stroke-width": 1.6 * pixel, "stroke-linejoin": "round" }));
  const count = got.vertices.length / 5;
  if ($("numbers").checked && count <= NUMBERED)
    for (let i = 0; i < count; i++) picture.append(element("text", { x: got.vertices[5 * i], y: got.vertices[5 * i + 1], "font-size": 12 * pixel, fill: "#1c2733" }, i));
}

// The place, a byte of the text, as a place among its letters; behind the end of the text it is marked by a letter of its own.
function mark(text, got) {
  const mirror = $("mirror");
  mirror.replaceChildren(text);
  if (got.number !== 9 && got.number !== 10) return;
  const before = new TextDecoder().decode(got.encoded.subarray(0, got.place));
  const marked = document.createElement("mark");
  marked.textContent = text.slice(before.length, before.length + 1).replace(/^\s?$/, "·");
  mirror.replaceChildren(before, marked, text.slice(before.length + 1));
}

function tell(got) {
  const told = $("told");
  told.className = got.number === 0 ? "" : "refused";
  if (got.number !== 0) {
    told.textContent = `refused ${got.number} ${got.place}: ${WORDS[got.number] || "the path is refused"}`;
    $("room").textContent = "";
    return;
  }
  const [v, t] = [got.vertices.length / 5, got.triangles.length / 3];
  told.textContent = t === 0 ? "Nothing is drawn: the path has no line, all its points are one, or its dashes leave nothing of it." : `${v} vertices, ${t} triangles`;
  const hidden = $("numbers").checked && v > NUMBERED ? ` Vertex numbers are shown up to ${NUMBERED} vertices.` : "";
  $("room").textContent = `Room: ${5 * v} floats, ${v} sources and ${3 * t} numbers, ${24 * v + 12 * t} bytes.${hidden}`;
}

// The triangle that was drawn last over a place, as the places of its three corners, or nothing.
function tapped({ vertices, triangles }, x, y) {
  for (let i = triangles.length - 3; i >= 0; i -= 3) {
    const corners = [triangles[i], triangles[i + 1], triangles[i + 2]];
    const turns = corners.map((from, k) => {
      const [a, b] = [5 * from, 5 * corners[(k + 1) % 3]];
      return (vertices[b] - vertices[a]) * (y - vertices[a + 1]) - (vertices[b + 1] - vertices[a + 1]) * (x - vertices[a]);
    });
    if (turns.every((turn) => turn >= 0) || turns.every((turn) => turn <= 0)) return corners;
  }
  return undefined;
}

// A tap on the stripe names the post, the path's point, that the nearest corner of the tapped triangle came from.
function name(event) {
  const picture = $("picture"), matrix = picture.getScreenCTM();
  const got = answered;
  if (!matrix || got.number !== 0) return;
  const { x, y } = new DOMPoint(event.clientX, event.clientY).matrixTransform(matrix.inverse());
  const corners = tapped(got, x, y);
  document.querySelectorAll("#tap").forEach((old) => old.remove());
  if (!corners) {
    $("post").textContent = "";
    return;
  }
  const far = (n) => Math.hypot(got.vertices[5 * n] - x, got.vertices[5 * n + 1] - y);
  const nearest = corners.reduce((a, b) => (far(b) < far(a) ? b : a));
  const [post, negative] = [got.sources[nearest] >> 1, got.sources[nearest] & 1];
  $("post").textContent = `Post ${post}, ${negative ? "negative" : "positive"} side: (${got.coords[2 * post]}, ${got.coords[2 * post + 1]}), vertex ${nearest}`;
  picture.append(element("circle", { id: "tap", cx: got.coords[2 * post], cy: got.coords[2 * post + 1], r: 5 / matrix.a, fill: "#9b1c0b" }));
}

let answered;

function renew() {
  const text = $("text").value;
  const number = (id) => parseFloat($(id).value);
  // What is no number among the dashes becomes a NaN, which the library refuses.
  const dashes = $("dashes").value.split(/[\s,]+/).filter((word) => word !== "").map(Number);
  answered = answerTo(text, { width: number("width"), limit: number("limit"), join: number("join"), cap: number("cap"), merge: number("merge"), detail: number("detail"), offset: number("offset"), dashes });
  draw(answered);
  mark(text, answered);
  tell(answered);
  $("post").textContent = "";
}

for (const name of Object.keys(EXAMPLES)) $("example").append(new Option(name, name));
function pick() {
  const { text, width, dashes } = EXAMPLES[$("example").value];
  $("text").value = text;
  $("width").value = width;
  $("dashes").value = dashes;
  renew();
}
$("example").addEventListener("change", pick);
document.addEventListener("input", (event) => { if (event.target.id !== "example") renew(); });
$("text").addEventListener("scroll", () => { $("mirror").scrollTop = $("text").scrollTop; });
$("picture").addEventListener("click", name);
window.addEventListener("resize", renew);
pick();
