"use strict";
// Draws /v1/status anew every two seconds while the page is seen; all that is told stands as text, never as markup.
const PAUSE = 2000;
let shown = null; // the blob whose shards are shown

function draw(name, rows) {
  const titles = [...at(name).parentElement.querySelectorAll("th")].map((it) => it.textContent);
  const drawn = rows.map((cells) => {
    const row = document.createElement("tr");
    cells.forEach((cell, number) => {
      const made = row.insertCell();
      made.dataset.name = titles[number];
      if (cell !== "") made.append(cell);
    });
    return row;
  });
  const focused = document.activeElement && document.activeElement.dataset.key;
  at(name).replaceChildren(...drawn);
  const again = focused && at(name).querySelector(`[data-key="${CSS.escape(focused)}"]`);
  if (again) again.focus(); // who goes by keyboard stays where they were
}

const mark = (kind, text) => make("span", text, { className: kind });
const list = (words) => words.join(", ");
const when = (time) => new Date(time * 1000).toLocaleTimeString();
const until = (blob) => (blob.ends ? `${blob.endEpoch}, ${blob.ends.slice(0, 10)}` : String(blob.endEpoch));

function look(id, table) {
  const made = make("button", id.slice(0, 16) + "…", { type: "button", title: `Show the shards of ${id}`, className: "id" });
  made.dataset.key = `${table} ${id}`;
  made.addEventListener("click", () => { shown = id; at("look-id").value = id; showBlob(); at("blob-title").scrollIntoView(); });
  return made;
}

function both(id, table) {
  const made = make("span", "");
  const link = make("a", "get", { href: `/v1/blobs/${id}`, download: id });
  link.dataset.key = `get ${table} ${id}`;
  link.setAttribute("aria-label", `Get ${id}`);
  made.append(look(id, table), " ", link);
  return made;
}

function stateOf(blob) {
  if (blob.invalid) return mark("bad", "declared invalid: badly encoded");
  const found = blob.certificate;
  if (found) return mark("good", `certified in epoch ${found.epoch} by ${found.count} shards`);
  return mark("wait", `${blob.needed} acknowledgements are lacking`);
}

function liveOf(blob, status) {
  if (!blob.certificate || blob.invalid) return "";
  const least = status.faults + 1;
  const text = `${blob.live} of ${status.shards}`;
  if (blob.live < least) return mark("bad", `${text}: cannot be read now`);
  if (blob.live === least) return mark("bad", `${text}: on its last ${least}`);
  return mark(blob.live < status.quorum ? "wait" : "good", text);
}

function ownOf(node) {
  const next = node.next.length ? `; next ${list(node.next)}${node.ready ? " (ready)" : ""}` : "";
  return (node.shards.length ? list(node.shards) : "none") + next;
}

function waitsOf(status) { // for which blobs a handover waits, by node; a gateway of an earlier version tells none
  return status.nodes.filter((it) => it.waits).map(({ name, waits }) => {
    const first = waits.first.map((it) => `${it.slice(0, 16)}…`).join(" "), more = waits.blobs - waits.first.length;
    return `; ${name} waits for ${waits.blobs.toLocaleString()} blobs${first && `: ${first}`}${first && more > 0 ? " and more" : ""}`;
  }).join("");
}

function heldOf({ held }) {
  return held && held.bytes !== undefined ? `${(held.blobs || 0).toLocaleString()} blobs, ${bytes(held.bytes)}` : "";
}

function diskOf({ disk }) {
  if (!disk || !disk.bytes) return "";
  const text = `${bytes(disk.free)} free of ${bytes(disk.bytes)}`;
  return disk.free <= disk.reserve ? mark("bad", `${text}: takes nothing`) : text;
}

function lagOf({ ledger }) {
  if (!ledger || ledger.behind === undefined) return "";
  return ledger.behind ? mark("wait", `${ledger.behind.toLocaleString()} entries behind`) : "up to date";
}

function workOf({ recovered, scrub, held }) {
  const made = make("span", "");
  if (held && held.wrong) made.append(mark("bad", `${held.wrong} parts went wrong`), " ");
  if (recovered && recovered.blobs < recovered.of) {
    const text = `recovers ${recovered.blobs} of ${recovered.of} blobs `;
    const bar = make("progress", "", { max: recovered.of, value: recovered.blobs });
    bar.setAttribute("aria-label", text);
    made.append(text, bar, " ");
  }
  if (scrub && scrub.running) made.append(`a scrub has read ${bytes(scrub.bytes)}`);
  else if (scrub && scrub.ended) made.append(`scrubbed ${new Date(scrub.ended * 1000).toLocaleDateString()}`);
  return made.childNodes.length ? made : "";
}

function awayOf(ledger) {
  const said = "what stands below is what it said last, and nothing can be stored";
  return ledger.stale ? `The ledger is away for ${Math.round(ledger.away)} s: ${said}.` : "";
}

function show(status) {
  const silent = status.nodes.filter((it) => it.state === "silent").length;
  const nodes = `${status.nodes.length - silent} of ${status.nodes.length} nodes answer`;
  const planned = status.calendar?.next ? `, planned until ${status.calendar.next.slice(0, 10)}` : "";
  tell("summary", `Epoch ${status.epoch}${planned}, ${status.shards} shards of which ${status.faults} may fail; ${nodes}.`);
  const plan = status.calendar, over = plan ? (Date.now() / 1000 - plan.since) / plan.seconds - (status.epoch - plan.epoch) : 0;
  at("epoch").hidden = !plan || status.moving;
  at("epoch-text").textContent = `Epoch ${status.epoch}: ${Math.round(100 * Math.max(0, over))} % of its planned time is over`;
  at("epoch-bar").value = Math.min(1, Math.max(0, over));
  at("move").hidden = !status.moving;
  at("move-text").textContent = `Handover to epoch ${status.epoch + 1}: ${status.ready} of ${status.quorum} needed shards are ready${waitsOf(status)}`;
  at("move-bar").max = status.quorum;
  at("move-bar").value = Math.min(status.ready, status.quorum);
  tell("storing", status.storing.possible || status.ledger.stale ? "" : `Nothing can be stored now: ${status.storing.why}.`);
  at("announced").hidden = !status.announced.length;
  at("announced").replaceChildren(...status.announced.map((it) => make("li", `${it.blob.slice(0, 16)}… was badly encoded: `
    + `${it.invalid ? "the ledger declares it invalid" : "it is not declared invalid yet"} (${it.said})`, { className: "bad" })));
  const last = Object.fromEntries([...status.challenges].reverse().map((it) => [it.node, it]));
  const found = (it) => mark(it.holds ? "good" : "bad", it.holds ? "held" : it.said);
  const figures = (it) => (it.state === "answers" ? it.figures : {}); // of a silent node they are old
  draw("nodes", status.nodes.map((it) => [
    it.name,
    it.state === "answers" ? mark("good", "answers") : mark(it.state === "silent" ? "bad" : "wait", it.said || it.state),
    ownOf(it),
    heldOf(figures(it)),
    diskOf(figures(it)),
    lagOf(figures(it)),
    workOf(figures(it)),
    last[it.name] ? found(last[it.name]) : "",
  ]));
  const counts = status.blobs;
  at("count").textContent = `${counts.registered.toLocaleString()} blobs registered, ${counts.certified.toLocaleString()} certified, `
    + `${counts.invalid} declared invalid. A file above 16 MiB has several; the last ${status.recent.length} files:`;
  draw("blobs", status.recent.map((it) => [
    both(it.blobId, "blobs"), it.size === null ? "" : size(it), stateOf(it), liveOf(it, status), list(it.lacking), until(it),
  ]));
  draw("challenges", status.challenges.map((it) => [it.node, found(it), look(it.blob, "challenges"), when(it.time)]));
  showRights(status);
}

const size = (blob) => bytes(blob.size) + (blob.pieces > 1 ? ` in ${blob.pieces} pieces` : "");

const STATES = {
  held: ["good", "acknowledged, and its node answers"],
  carried: ["good", "taken over from the committee before"],
  lacking: ["bad", "lacking"],
  silent: ["bad", "its node does not answer"],
};

async function showBlob() {
  if (!shown) return;
  const response = await ask(`/v1/status/${shown}`).catch(() => null);
  if (!response) return;
  const told = await response.json();
  if (!response.ok) {
    tell("blob-said", told.error.text);
    at("grid").replaceChildren();
    return;
  }
  const of = told.shards.length;
  tell("blob-said", `${told.blobId}: ${stateOf(told).textContent}, until epoch ${until(told)}; ${told.live} of ${of} shards are `
    + `there now, ${told.faults + 1} are needed to read it.`);
  at("grid").replaceChildren(...told.shards.map((it) => {
    const [kind, text] = STATES[it.state];
    const made = make("li", `${it.shard}: ${it.node}`, { className: kind });
    const challenge = it.challenge ? `; challenged at ${when(it.challenge.time)}: ${it.challenge.holds ? "held" : it.challenge.said}` : "";
    made.append(make("small", text + challenge));
    return made;
  }));
}

at("look").addEventListener("submit", (event) => {
  event.preventDefault();
  shown = at("look-id").value.trim();
  showBlob();
});

at("token").addEventListener("submit", (event) => {
  event.preventDefault();
  sessionStorage.setItem("token", at("token-text").value.trim()); // until the tab is closed
  refresh(true);
});

async function refresh(once) {
  if (!document.hidden) {
    try {
      const response = await ask("/v1/status");
      if (!response.ok) {
        at("token").hidden = false;
        tell("fault", (await response.json()).error.text);
      } else {
        const status = await response.json();
        show(status);
        tell("fault", awayOf(status.ledger));
        await showBlob();
      }
    } catch (fault) {
      tell("fault", "The gateway does not answer; what stands below is what it said last.");
    }
  }
  if (once !== true) setTimeout(refresh, PAUSE);
}

refresh();
