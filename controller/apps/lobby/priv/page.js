"use strict";
// The token is stored for this tab, and never appears in an address.
let token = sessionStorage.getItem("token") || "";
let refused = false;
// The name of the chosen room, the room in the last response, and its open flows as "talker listener".
let chosen = null, room = null, open = new Set();
const ROLES = ["member", "customer", "agent", "coach", "monitor", "listener"];
const PRESETS = { plain: "everyone hears everyone", lecture: "nobody hears listeners", coaching: "the customer doesn't hear the coach", monitored: "nobody hears the monitor" };
const $ = id => document.getElementById(id);

async function ask(method, path, body) {
  const response = await fetch(path, { method, headers: { Authorization: "Bearer " + token }, body: body && JSON.stringify(body) });
  const answer = await response.json();
  if (!response.ok) throw new Error(answer.error);
  return answer;
}
const path = (kind, name, action) => `/${kind}/${encodeURIComponent(name)}${action ? "/" + action : ""}`;

// Creates an element with properties and children. Texts are never parsed as HTML.
function element(name, properties, ...children) {
  const { label, ...others } = properties;
  const made = Object.assign(document.createElement(name), others);
  if (label) made.setAttribute("aria-label", label);
  made.append(...children);
  return made;
}
const button = (text, onclick, properties) => element("button", { type: "button", onclick, ...properties }, text);
const option = (value, text) => element("option", { value }, text);
const put = (it, text) => { if (it.textContent !== text) it.textContent = text; };

// Keeps a name from reordering or hiding other text. Invisible characters are shown as numbers, a long name is cut, and
// Unicode's isolates enclose a name that isn't ASCII.
function shown(text) {
  const plain = [...text.replace(/[\p{C}\p{Zl}\p{Zp}\p{Default_Ignorable_Code_Point}\u2800]|[^\S ]/gu,
    it => `<${it.codePointAt(0).toString(16).toUpperCase()}>`).replace(/(\p{M}\p{M})\p{M}+/gu, "$1…").trim()];
  const short = (plain.length > 60 ? [...plain.slice(0, 59), "…"] : plain).join("");
  return /^[ -~]*$/.test(short) ? short : "\u2068" + short + "\u2069";
}
// By id, the members' names, and how many members each of them hears and is heard by. They are computed once for each
// response.
let names = new Map(), counts = new Map();
const named = it => names.get(it.id);
function count() {
  const callers = room.members.map(it => it.caller);
  const twins = new Set(callers.filter((it, i) => callers.indexOf(it) !== i));
  names = new Map(room.members.map(it => [it.id, (it.caller.trim() ? shown(it.caller) : "(no name)") +
    (it.proved && it.says !== it.caller ? ` (says ${shown(it.says)})` : "") + (twins.has(it.caller) ? ` ${it.id}` : "")]));
  counts = new Map(room.members.map(it => [it.id, { heard: 0, hears: 0 }]));
  for (const { talker, listener } of room.flows) { counts.get(talker).heard++; counts.get(listener).hears++; }
}
const byId = id => room.members.find(it => it.id === id);

function say(text) { put($("error"), text); }

// Milliseconds for which a change is highlighted.
const MARK = 2000;

// Shows what was done, with a button that undoes it, if that is possible.
function done(text, undo) {
  const again = undo && button("Undo", () => { $("done").replaceChildren(); attempt(undo); });
  $("done").replaceChildren(text, ...again ? [again] : []);
}
async function attempt(action) {
  try { await action(); say(""); } catch (failure) { say(failure.message); }
  soon();
}
// Carries out an action, reports it, and offers to undo it, if that is possible.
const act = (text, action, undo) => attempt(async () => { await action(); done(text, undo); });
function sure(text) {
  const dialog = $("sure");
  put(dialog.querySelector("p"), text);
  dialog.returnValue = "no";
  dialog.showModal();
  return new Promise(decided => { dialog.onclose = () => decided(dialog.returnValue === "yes"); });
}

const post = (id, action, body) => ask("POST", path("members", id, action), body || {});
// Sends a POST for each member, even if one of them fails.
async function postAll(ids, action) {
  const failed = (await Promise.allSettled(ids.map(id => post(id, action)))).find(it => it.status === "rejected");
  if (failed) throw failed.reason;
}
function all(which, action, back, text) {
  const ids = room.members.filter(which).map(it => it.id);
  if (ids.length) act(`${text} (${ids.length})`, () => postAll(ids, action), () => postAll(ids, back));
  else done(`${text}: nobody`);
}
const setRules = (name, rules, door) => ask("PUT", path("rooms", name), { ...rules, door });
function changeRules(text, rules) {
  const { name, rules: before, door } = room;
  act(text, () => setRules(name, rules, door), () => setRules(name, { rules: before }, door));
}

// Returns a member's state according to the gateway, which can differ from the desired state.
function states(it) {
  const others = room.members.length - 1, { heard, hears } = counts.get(it.id), is = [];
  if (it.termination === undefined) is.push(["bad", "not on a gateway"]);
  if (it.waiting) is.push(["warn", "waits at the door"]);
  if (it.isolated) is.push(heard + hears ? ["bad", "not isolated yet"] : ["warn", "isolated"]);
  if (it.muted) is.push(heard ? ["bad", "not muted yet"] : ["warn", "muted"]);
  if (it.direction !== "sendrecv") is.push(["", "on hold"]);
  is.push(["", `heard by ${heard} of ${others}, hears ${hears}`]);
  if (it.sends !== null) is.push(["", it.sends ? "sends packets" : "silent: sends no packets"]);
  return is;
}

// A member's row is created once, so that it keeps the focus. Later, only changed parts are written.
const rows = new Map();
function newRow(id) {
  const who = element("span", { className: "who" }), role = element("span", {}), is = element("span", { className: "is" });
  const isolate = button("", () => {
    const [it, undo] = [byId(id), byId(id).isolated ? "isolate" : "release"];
    act(`${it.isolated ? "Released" : "Isolated"}: ${named(it)}`, () => post(id, it.isolated ? "release" : "isolate"), () => post(id, undo));
  });
  const mute = button("", () => {
    const [it, undo] = [byId(id), byId(id).muted ? "mute" : "unmute"];
    act(`${it.muted ? "Unmuted" : "Muted"}: ${named(it)}`, () => post(id, it.muted ? "unmute" : "mute"), () => post(id, undo));
  });
  const field = (name, list, label) => element("input", { name, label, required: true, maxLength: 32, autocomplete: "off" });
  const form = (input, list, text, onsubmit) => {
    input.setAttribute("list", list);
    return element("form", { onsubmit: event => { event.preventDefault(); onsubmit(input.value); } }, input, element("button", {}, text));
  };
  const roleForm = form(field("role"), "roles", "Set role", role => {
    const it = byId(id);
    if (it.waiting) act(`Let in as ${role}: ${named(it)}`, async () => { await post(id, "let_in", { role }); more.open = false; });
    else act(`Role of ${named(it)}: ${role}`, () => post(id, "role", { role }), () => post(id, "role", { role: it.role }));
  });
  const moveForm = form(field("room"), "names", "Move", to => {
    const from = room.name;
    act(`Moved to ${to}: ${named(byId(id))}`, () => post(id, "move", { room: to }), () => post(id, "move", { room: from }));
  });
  const hangUp = button("Hang up", async () => {
    if (await sure(`Hang up on ${named(byId(id))}?`)) act("Hung up", () => post(id, "hang_up"));
  }, { className: "danger" });
  const revoke = button("Hang up and revoke the link", async () => {
    if (await sure(`Hang up on ${named(byId(id))}, who can't join again by the same link?`)) act("Hung up", () => post(id, "hang_up", { revoke: true }));
  }, { className: "danger", hidden: !byId(id).link });
  const more = element("details", {}, element("summary", {}, "More"), roleForm, moveForm, hangUp, revoke);
  const li = element("li", {}, who, role, is, element("span", { className: "do" }, isolate, mute, more));
  return { li, who, role, is, isolate, mute, roleForm, moveForm, more, was: null, own: null };
}
function updateRow(row, it) {
  const name = named(it), is = states(it), now = JSON.stringify([name, it.role, is, it.proved, it.waiting]);
  if (row.was === now) return;
  put(row.who, name + (it.proved ? " ✓" : ""));
  row.who.title = it.proved ? `${name}: the name is proved` : `${name}: the caller's own words`;
  put(row.role, shown(it.role));
  row.is.replaceChildren(...is.map(([className, text]) => element("span", { className }, text)));
  for (const [it_, text, label, on] of [[row.isolate, it.isolated ? "Release" : "Isolate", "", it.isolated], [row.mute, it.muted ? "Unmute" : "Mute", "", it.muted]]) {
    put(it_, text);
    it_.setAttribute("aria-pressed", on);
    it_.setAttribute("aria-label", `${text} ${name}`);
  }
  put(row.roleForm.lastChild, it.waiting ? "Let in" : "Set role");
  row.roleForm.firstChild.setAttribute("aria-label", `Role of ${name}`);
  row.moveForm.firstChild.setAttribute("aria-label", `Room to which ${name} moves`);
  if (it.waiting && row.was === null) row.more.open = true;
  // The number of members that this member hears changes with every other member, so it isn't highlighted.
  const own = JSON.stringify([it.role, it.muted, it.isolated, it.waiting, it.direction, it.termination === undefined]);
  if (row.own !== null && row.own !== own) flash(row.li);
  [row.was, row.own] = [now, own];
}
const still = matchMedia("(prefers-reduced-motion: reduce)");
function flash(it) {
  it.animate({ backgroundColor: ["var(--flash)", "transparent"] }, { duration: MARK, easing: still.matches ? "steps(1)" : "linear" });
}
function showPeople() {
  const list = $("people"), sought = $("search").value.toLowerCase();
  for (const [id, row] of rows) if (!byId(id)) { row.li.remove(); rows.delete(id); }
  let next = list.firstChild, seen = 0;
  for (const it of room.members) {
    if (!rows.has(it.id)) rows.set(it.id, newRow(it.id));
    const row = rows.get(it.id);
    updateRow(row, it);
    row.li.hidden = !(named(it) + " " + it.role).toLowerCase().includes(sought);
    seen += !row.li.hidden;
    if (row.li === next) next = next.nextSibling;
    else list.insertBefore(row.li, next);
  }
  $("nobody").hidden = seen > 0;
  put($("nobody"), room.members.length ? "Nobody has this name." : "Nobody is here.");
}

// The matrix has a row for each listener and a column for each talker. A cell that has changed is highlighted for a
// while.
const cursor = { row: 0, column: 0 }, changed = new Map();
let cell = 8, labels = 0;
function draw() {
  const canvas = $("matrix"), people = room.members, n = people.length, scale = devicePixelRatio || 1;
  canvas.parentElement.hidden = n < 2;
  if (n < 2) return;
  // The matrix fits the window.
  const width = Math.min(canvas.parentElement.clientWidth, Math.max(320, innerHeight - 80));
  labels = Math.min(120, width / 3);
  cell = Math.max(3, Math.min(26, Math.floor((width - labels) / n)));
  if (cell < 13) { labels = 0; cell = Math.max(3, Math.min(12, Math.floor(width / n))); }
  const size = labels + n * cell;
  if (canvas.width !== Math.round(size * scale)) {
    canvas.width = canvas.height = Math.round(size * scale);
    canvas.style.width = size + "px";
  }
  const style = getComputedStyle(document.documentElement), color = name => style.getPropertyValue("--" + name);
  const [opened, closed, self, text, ground, link, mark] = ["open", "closed", "self", "text", "ground", "link", "flash"].map(color);
  const context = canvas.getContext("2d"), now = performance.now();
  context.setTransform(scale, 0, 0, scale, 0, 0);
  context.fillStyle = ground;
  context.fillRect(0, 0, size, size);
  const gap = cell > 8 ? 1 : 0;
  people.forEach((listener, row) => people.forEach((talker, column) => {
    const [x, y] = [labels + column * cell, labels + row * cell], key = `${talker.id} ${listener.id}`, hears = open.has(key);
    context.fillStyle = row === column ? self : now - changed.get(key) < MARK ? mark : hears ? opened : closed;
    context.fillRect(x, y, cell - gap, cell - gap);
    context.fillStyle = opened;
    if (now - changed.get(key) < MARK && hears) context.fillRect(x + cell / 4, y + cell / 4, cell / 2, cell / 2);
    if (row !== column && !hears && cell > 10) { context.fillStyle = text; context.fillRect(x + cell / 3, y + cell / 2 - 1, cell / 3, 1.5); }
  }));
  context.strokeStyle = link;
  context.lineWidth = 2;
  context.strokeRect(labels, labels + cursor.row * cell, n * cell, cell);
  context.strokeRect(labels + cursor.column * cell, labels, cell, n * cell);
  if (labels) {
    context.fillStyle = text;
    context.font = "12px system-ui, sans-serif";
    people.forEach((it, i) => {
      const name = [...named(it)].slice(0, 22).join("");
      context.fillText(name, 0, labels + i * cell + cell / 2 + 4, labels - 6);
      context.save();
      context.translate(labels + i * cell + cell / 2 + 4, labels - 6);
      context.rotate(-Math.PI / 2);
      context.fillText(name, 0, 0, labels - 8);
      context.restore();
    });
  }
  canvas.setAttribute("aria-label", `Who hears whom: ${open.size} of ${people.length * (people.length - 1)} flows are open. Arrow keys choose a pair.`);
  const [listener, talker] = [people[cursor.row], people[cursor.column]];
  put($("cell"), !listener || !talker ? "" : listener === talker ? named(talker) :
    `${named(listener)} ${open.has(`${talker.id} ${listener.id}`) ? "hears" : "doesn't hear"} ${named(talker)}`);
}
function point(row, column) {
  const last = room.members.length - 1;
  cursor.row = Math.max(0, Math.min(last, row));
  cursor.column = Math.max(0, Math.min(last, column));
  draw();
}
$("matrix").onpointermove = $("matrix").onpointerdown = event =>
  point(Math.floor((event.offsetY - labels) / cell), Math.floor((event.offsetX - labels) / cell));
$("matrix").onkeydown = event => {
  const step = { ArrowUp: [-1, 0], ArrowDown: [1, 0], ArrowLeft: [0, -1], ArrowRight: [0, 1] }[event.key];
  if (!step) return;
  event.preventDefault();
  point(cursor.row + step[0], cursor.column + step[1]);
};
addEventListener("resize", () => room && draw());
matchMedia("(prefers-color-scheme: dark)").onchange = () => room && draw();

const party = it => it === "everyone" ? "everyone" : it.role !== undefined ? `role ${shown(it.role)}` :
  byId(it.member) ? named(byId(it.member)) : `member ${shown(it.member)}`;

// Recreates a part of the page only if its value has changed, so that an open list stays open.
const parts = new Map();
function part(it, value, children) {
  const now = JSON.stringify(value);
  if (parts.get(it) === now) return;
  parts.set(it, now);
  const chosenBefore = it.value;
  it.replaceChildren(...children());
  if (chosenBefore !== undefined && [...it.options || []].some(other => other.value === chosenBefore)) it.value = chosenBefore;
}
function showRoom() {
  const { name, members, locked, door } = room;
  put($("name"), "Room " + name);
  put($("state"), [`${members.length} ${members.length === 1 ? "person" : "people"}`, locked && "locked", door && "callers wait at the door",
    room.gateway === null ? "not on a gateway at the moment" : `on gateway ${shown(room.gateway)}, context ${room.context}`].filter(Boolean).join(", "));
  put($("source"), (room.audited ? "As the gateway has just reported it." : "According to the requests that the gateway has accepted: it couldn't report the flows.") +
    " Rows hear columns. A member who sends packets may be silent: the gateway counts packets, not sound.");
  const roles = [...new Set(members.map(it => it.role))].sort();
  part($("actions"), roles, () => [
    button("Mute all", () => all(it => !it.muted, "mute", "unmute", "Muted all")),
    button("Unmute all", () => all(it => it.muted, "unmute", "mute", "Unmuted all")),
    ...roles.length ? [element("select", { id: "role", label: "Of role" }, ...roles.map(it => option(it, shown(it)))),
      button("Isolate role", () => { const role = $("role").value; all(it => it.role === role && !it.isolated, "isolate", "release", `Isolated all of role ${shown(role)}`); }),
      button("Release role", () => { const role = $("role").value; all(it => it.role === role && it.isolated, "release", "isolate", `Released all of role ${shown(role)}`); })] : [],
    button("", () => {
      const { name, locked } = room, [way, back] = locked ? ["unlock", "lock"] : ["lock", "unlock"];
      act(`${locked ? "Unlocked" : "Locked"} room ${name}`, () => ask("POST", path("rooms", name, way)), () => ask("POST", path("rooms", name, back)));
    }, { id: "lock" }),
    button("End", async () => {
      const name = room.name;
      if (await sure(`Hang up on everyone in room ${name}, and end it?`)) act(`Ended room ${name}`, () => ask("DELETE", path("rooms", name)));
    }, { className: "danger" })]);
  put($("lock"), locked ? "Unlock" : "Lock");
  part($("roles"), roles, () => [...new Set([...ROLES, ...roles])].map(it => option(it)));
  const parties = ["everyone", ...[...new Set([...ROLES, ...roles])].map(role => ({ role })), ...members.map(it => ({ member: it.id }))];
  for (const name of ["talker", "listener"])
    part($("rule").elements[name], [parties, members.map(named)], () => parties.map(it => option(JSON.stringify(it), party(it))));
  part($("rules"), [room.rules, members.map(named)], () => room.rules.map((it, i) => {
    const text = `${party(it.talker)} is ${it.hears ? "heard" : "not heard"} by ${party(it.listener)}`;
    return element("li", {}, text, button("Remove", () => changeRules(`Removed: ${text}`, { rules: room.rules.filter((_, j) => j !== i) }), { label: `Remove: ${text}` }));
  }));
  showPeople();
  draw();
}
$("rule").onsubmit = event => {
  event.preventDefault();
  const { talker, listener, hears } = event.target.elements;
  changeRules("Added a rule", { rules: [...room.rules, { hears: hears.value === "true", talker: JSON.parse(talker.value), listener: JSON.parse(listener.value) }] });
};
$("preset").onsubmit = event => {
  event.preventDefault();
  changeRules(`Rules: ${event.target.elements.preset.value}`, { preset: event.target.elements.preset.value });
};
for (const form of [$("preset"), $("new").querySelector("form")])
  form.elements.preset.append(...Object.entries(PRESETS).map(([value, text]) => option(value, `${value}: ${text}`)));
$("new").querySelector("form").onsubmit = event => {
  event.preventDefault();
  const { room: { value: name }, preset, door } = event.target.elements;
  act(`Created room ${name}`, () => setRules(name, { preset: preset.value }, door.checked), () => ask("DELETE", path("rooms", name)));
  $("new").open = false;
  choose(name);
};
// A link is shown only once, because it isn't stored.
$("invite").querySelector("form").onsubmit = event => {
  event.preventDefault();
  const { name, role, seconds } = event.target.elements;
  act(`Made a link for ${shown(name.value)}`, async () => {
    const { number, link } = await ask("POST", "/links", { room: room.name, name: name.value, role: role.value, seconds: Number(seconds.value) });
    const address = element("input", { readOnly: true, value: `${location.origin}/join#${link}`, label: `Link for ${name.value}`, onfocus: () => address.select() });
    const line = element("li", { className: "bar" }, `${shown(name.value)}, ${shown(role.value)}, room ${room.name}: `, address,
      button("Copy", () => attempt(async () => { await navigator.clipboard.writeText(address.value); done("Copied"); })),
      button("Revoke", () => act("Revoked the link", async () => { await ask("DELETE", path("links", number)); line.remove(); }), { className: "danger" }));
    $("links").append(line);
    event.target.reset();
    address.focus();
  });
};
$("search").oninput = showPeople;

function choose(name) {
  if (chosen !== name) { changed.clear(); room = null; }
  chosen = name;
  soon();
}
async function refresh() {
  const { rooms } = await ask("GET", "/rooms");
  if (!rooms.includes(chosen)) { chosen = rooms[0] ?? null; room = null; }
  part($("rooms"), rooms, () => rooms.map(name => element("li", {}, button(name, () => choose(name)))));
  for (const it of $("rooms").querySelectorAll("button")) it.setAttribute("aria-current", it.textContent === chosen);
  part($("names"), rooms, () => rooms.map(it => option(it)));
  const now = chosen === null ? null : await ask("GET", path("rooms", chosen));
  if (now && now.name !== chosen) return;
  const before = room && room.name === now?.name ? open : null;
  room = now;
  $("room").hidden = !room;
  $("empty").hidden = !!room;
  if (!room) return;
  const key = it => it.caller.toLowerCase();
  room.members.sort((a, b) => key(a).localeCompare(key(b), undefined, { numeric: true }) || (a.id < b.id ? -1 : 1));
  count();
  open = new Set(room.flows.map(flow => `${flow.talker} ${flow.listener}`));
  if (before) for (const flow of new Set([...before, ...open])) if (before.has(flow) !== open.has(flow)) changed.set(flow, performance.now());
  if (changed.size) setTimeout(() => { for (const [flow, at] of changed) if (performance.now() - at >= MARK) changed.delete(flow); if (room) draw(); }, MARK + 50);
  showRoom();
}

// Requests the room again after any event, but at most five times a second.
let wanted = false, asking = false, asked = 0;
async function soon() {
  wanted = true;
  if (asking) return;
  for (asking = true; wanted;) {
    await new Promise(done => setTimeout(done, asked + 200 - performance.now()));
    [wanted, asked] = [false, performance.now()];
    try { await refresh(); } catch (failure) { say(failure.message); }
  }
  asking = false;
}
// Packets cause no events, so the page also polls.
setInterval(() => {
  if (token === "" || document.hidden || $("page").hidden) return;
  soon();
  showGateways().catch(() => {});
}, 2000);

const gateways = new Map();
async function showGateways() {
  const { gateways: serving, rtpengine } = await ask("GET", "/gateways");
  $("invite").hidden = rtpengine === "none";
  const used = new Map(serving.map(it => [it.name, it.terminations]));
  for (const { name, draining } of serving) gateways.set(name, draining ? "draining" : "serving");
  put($("gateways"), [...gateways].map(([name, state]) =>
    `Gateway ${shown(name)}: ${state}${used.has(name) ? `, terminations: ${used.get(name)}` : ""}`).join("; ") +
    (rtpengine === "none" ? "" : `; rtpengine: ${rtpengine}`));
  for (const [name, state] of gateways) {
    if (!drains.has(name)) drains.set(name, $("drains").appendChild(button("", () => drain(name))));
    put(drains.get(name), `${leaves(state) ? "Resume" : "Drain"} gateway ${shown(name)}`);
  }
}

// The gateways' buttons, by name.
const drains = new Map();
const leaves = state => ["draining", "drained"].includes(state);
async function drain(name) {
  const [way, back] = leaves(gateways.get(name)) ? ["resume", "drain"] : ["drain", "resume"];
  if (way === "drain" && !await sure(`Move all rooms from gateway ${shown(name)} to others? It takes no new rooms until you resume it.`)) return;
  act(`${way === "drain" ? "Draining" : "Resumed"} gateway ${shown(name)}`, () => ask("POST", path("gateways", name, way)), () => ask("POST", path("gateways", name, back)));
}

// Reads server-sent events with fetch, because an EventSource can't send the token.
async function watch() {
  const response = await fetch("/events", { headers: { Authorization: "Bearer " + token } });
  refused = response.status === 401;
  if (!response.ok) throw new Error((await response.json()).error);
  $("page").hidden = false;
  await Promise.all([refresh(), showGateways()]);
  say("");
  const reader = response.body.pipeThrough(new TextDecoderStream()).getReader();
  for (let text = ""; ;) {
    const { done, value } = await reader.read();
    if (done) throw new Error("The connection to the controller is lost.");
    const events = (text + value).split("\n\n");
    text = events.pop();
    for (const event of events) happened(event);
  }
}
function happened(event) {
  const [, kind, data] = event.match(/^event: (.*)\ndata: (.*)$/) || [];
  if (kind === undefined) return;
  const { name, state } = JSON.parse(data);
  if (kind === "gateway") { gateways.set(name, state); showGateways().catch(() => {}); }
  soon();
}
async function forever() {
  $("login").hidden = token !== "";
  if (token === "") return;
  try { await watch(); } catch (failure) { say(failure.message); }
  $("login").hidden = !refused;
  $("page").hidden = refused;
  if (!refused) setTimeout(forever, 1000);
}
$("login").onsubmit = event => {
  event.preventDefault();
  token = $("token").value;
  sessionStorage.setItem("token", token);
  refused = false;
  forever();
};
forever();
