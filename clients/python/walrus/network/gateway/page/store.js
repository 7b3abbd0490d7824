"use strict";
// Stores files piece by piece, so that a break costs one piece, and keeps in this browser what was stored from here.
const PIECE = 16777216, TRIES = 6, KEPT = 100;
const at = (name) => document.getElementById(name);
let queue = Promise.resolve(); // one file after the other

function make(kind, text, words = {}) {
  const made = document.createElement(kind);
  made.textContent = text;
  Object.assign(made, words);
  return made;
}

function tell(name, text) {
  if (at(name).textContent !== text) at(name).textContent = text;
  at(name).hidden = !text;
}

function bytes(count) {
  const units = ["B", "kB", "MB", "GB", "TB", "PB"];
  const step = count < 1000 ? 0 : Math.min(units.length - 1, Math.floor(Math.log10(count) / 3));
  return `${step ? (count / 1000 ** step).toPrecision(3) : count} ${units[step]}`;
}

function shownToken() {
  const token = sessionStorage.getItem("token");
  return token ? { Authorization: `Bearer ${token}` } : {};
}

function ask(path, words = {}) {
  return fetch(path, { signal: AbortSignal.timeout(10000), ...words, headers: { ...shownToken(), ...words.headers } });
}

async function showRights(status) {
  const response = await ask("/v1/rights").catch(() => null);
  if (!response || !response.ok) return;
  const rights = await response.json();
  at("store").hidden = false;
  at("store-form").hidden = !rights.store;
  at("token").hidden = rights.store || !rights.token;
  at("epochs").max = rights.epochs;
  const left = Object.entries(rights.share).filter(([, it]) => it.of !== null)
    .map(([kind, it]) => `${it.used.toLocaleString()} of ${it.of.toLocaleString()} ${kind} used in this epoch`);
  const may = `Up to ${bytes(rights.most)} each, for up to ${rights.epochs} epochs. ${left.join(", ")}`;
  tell("store-may", rights.store ? may : `Nothing can be stored from here: ${rights.why}.`);
  const calendar = at("epochs").value ? status.calendar : null;
  const days = calendar ? Number(at("epochs").value) * calendar.seconds / 86400 : 0;
  at("until").textContent = calendar ? `about ${days.toLocaleString(undefined, { maximumFractionDigits: 1 })} days by the calendar` : "";
  drawOwn();
}

// A request with its progress, which fetch does not tell; nothing where the connection breaks off.
function send(method, path, body, headers, progress) {
  return new Promise((done) => {
    const request = new XMLHttpRequest();
    request.open(method, path);
    for (const [name, text] of Object.entries({ ...shownToken(), ...headers })) request.setRequestHeader(name, text);
    request.upload.addEventListener("progress", (event) => progress(event.loaded));
    request.addEventListener("load", () => done(request));
    for (const kind of ["error", "timeout", "abort"]) request.addEventListener(kind, () => done(null));
    request.send(body);
  });
}

const told = (request) => { try { return JSON.parse(request.responseText); } catch (fault) { return {}; } };
const why = (request) => (told(request).error || { text: `status ${request.status}` }).text;
const placeOf = (request) => {
  const place = request ? request.getResponseHeader("Location") || "" : "";
  return place.startsWith("/v1/uploads/") ? place : "";
};
const passing = (status) => [408, 409, 429, 502, 503, 504].includes(status);

async function storeFile(file, epochs, progress) {
  let place = "", offset = 0, tries = 0;
  for (;;) {
    const piece = file.slice(offset, offset + PIECE);
    const end = offset + piece.size >= file.size;
    const headers = { "Upload-Complete": end ? "?1" : "?0" };
    const begun = offset;
    const step = (loaded) => progress(begun + loaded);
    const type = { "Content-Type": "application/partial-upload", "Upload-Offset": String(offset) };
    const request = place
      ? await send("PATCH", place, piece, { ...headers, ...type }, step)
      : await send("POST", `/v1/uploads?epochs=${epochs}`, piece, { ...headers, "Upload-Length": String(file.size) }, step);
    if (request && request.status < 300 && end) return told(request);
    place = place || placeOf(request);
    if (request && request.status < 300) {
      offset += piece.size;
      tries = 0;
      continue;
    }
    const fault = request ? why(request) : "the connection broke off";
    if (request && !passing(request.status)) throw new Error(fault);
    tries += 1;
    if (tries === TRIES) throw new Error(`${fault}; it was tried ${TRIES} times`);
    progress(offset, `${fault}; it is tried again`);
    await new Promise((done) => setTimeout(done, 1000 * 2 ** (tries - 1)));
    const state = place && await ask(place).then((it) => (it.ok ? it.json() : null)).catch(() => null);
    if (state && state.complete) return state.file;
    if (state) offset = state.offset;
  }
}

function own() {
  try {
    const known = JSON.parse(localStorage.getItem("stored") || "[]");
    return Array.isArray(known) ? known.filter((it) => it && /^[0-9a-f]{64}$/.test(it.id)) : [];
  } catch (fault) {
    return [];
  }
}

function copyOf(id) {
  if (!navigator.clipboard) return ""; // a page without TLS may not: the identifier can be marked
  const made = make("button", "copy", { type: "button" });
  made.setAttribute("aria-label", `Copy ${id}`);
  made.dataset.key = `copy ${id}`;
  made.addEventListener("click", async () => {
    await navigator.clipboard.writeText(id).then(() => { made.textContent = "copied"; }, () => { made.textContent = "not copied"; });
  });
  return made;
}

function named(id) {
  const made = make("span", "");
  const link = make("a", id, { href: `/v1/blobs/${id}`, className: "id", download: id });
  link.dataset.key = `own ${id}`;
  made.append(link, " ", copyOf(id));
  return made;
}

let drawnOwn = "";
function drawOwn() {
  const known = own(), text = JSON.stringify(known);
  at("own-table").hidden = at("forget").hidden = !known.length;
  if (text === drawnOwn) return;
  drawnOwn = text;
  draw("own", known.map((it) => [String(it.name), bytes(Number(it.size)), named(it.id), String(it.end)]));
}

function keep(name, it) {
  const entry = { name, id: it.blobId, size: it.size, end: it.endEpoch };
  localStorage.setItem("stored", JSON.stringify([entry, ...own().filter((one) => one.id !== it.blobId)].slice(0, KEPT)));
  drawOwn();
}

function store(files) {
  if (!at("epochs").reportValidity()) return;
  for (const file of files) {
    const line = make("li", `${file.name}: `);
    const bar = make("progress", "", { max: Math.max(1, file.size), value: 0 });
    bar.setAttribute("aria-label", `${file.name} is stored`);
    const said = make("span", " waits");
    line.append(bar, said);
    at("sending").append(line);
    const epochs = at("epochs").value;
    queue = queue.then(() => storeFile(file, epochs, (done, text) => {
      bar.value = done;
      said.textContent = ` ${text || (done < file.size ? `${bytes(done)} of ${bytes(file.size)}` : "is being certified")}`;
    })).then((it) => {
      line.replaceChildren(make("span", `${file.name}: `, { className: "good" }), named(it.blobId), `, until epoch ${it.endEpoch}`);
      keep(file.name, it);
    }, (fault) => line.replaceChildren(make("span", `${file.name} is not stored: ${fault.message}`, { className: "bad" })));
  }
}

at("files").addEventListener("change", () => {
  store([...at("files").files]);
  at("files").value = "";
});
at("store-form").addEventListener("submit", (event) => event.preventDefault());
at("forget").addEventListener("click", () => { localStorage.removeItem("stored"); drawOwn(); });
for (const kind of ["dragover", "dragenter", "dragleave", "drop"]) {
  document.addEventListener(kind, (event) => {
    if (![...(event.dataTransfer ? event.dataTransfer.types : [])].includes("Files")) return;
    event.preventDefault(); // else the browser would leave this page for the file
    const over = at("drop").contains(event.target) && !at("store-form").hidden;
    at("drop").classList.toggle("over", over && kind !== "drop" && kind !== "dragleave");
    if (kind === "drop" && over) store([...event.dataTransfer.files]);
  });
}
