"use strict";
// The link's token is in the address after #, a part that browsers don't send.
const link = location.hash.slice(1);
const $ = id => document.getElementById(id);
const audio = new Audio();
// The connection, its path on the controller, the microphone, timers, ICE servers, a reconnection under way, and the
// audio context.
let connection = null, place = null, microphone = null, timers = [], servers = [], again = null, context = null;

const say = text => { if ($("state").textContent !== text) $("state").textContent = text; };
const pause = time => new Promise(done => setTimeout(done, time));
const ask = (method, path, body) => fetch(path, { method, body, keepalive: method === "DELETE",
  headers: { Authorization: "Bearer " + link, ...body && { "Content-Type": "application/sdp" } } });

// Returns the response, or throws an error with its status. Only an error with a status can be final.
async function answered(response) {
  if (response.ok) return response;
  const { error } = await response.json().catch(() => ({ error: response.statusText }));
  throw Object.assign(new Error(error[0].toUpperCase() + error.slice(1) + "."), { status: response.status });
}
const FAILURES = { NotAllowedError: "The browser isn't allowed to use a microphone. Allow it, and join again.",
  NotFoundError: "No microphone was found. Connect one, and join again.",
  NotReadableError: "The microphone is used by another program." };

async function hear() {
  if (!navigator.mediaDevices) throw new Error("A browser gives its microphone only to pages over https.");
  microphone = await navigator.mediaDevices.getUserMedia({ audio: true });
  context = new AudioContext();
  const analyser = new AnalyserNode(context, { fftSize: 512 }), samples = new Float32Array(512);
  context.createMediaStreamSource(microphone).connect(analyser);
  timers.push(setInterval(() => {
    analyser.getFloatTimeDomainData(samples);
    $("level").value = Math.min(1, 4 * Math.sqrt(samples.reduce((sum, it) => sum + it * it, 0) / samples.length));
  }, 100));
}

// Sends an offer in a POST. A second POST replaces the first.
async function connect() {
  connection?.close();
  const now = connection = new RTCPeerConnection({ iceServers: servers });
  for (const track of microphone.getTracks()) now.addTrack(track, microphone);
  now.ontrack = event => { audio.srcObject = new MediaStream([event.track]); audio.play(); };
  await now.setLocalDescription();
  // Until the response arrives, `look' doesn't ask about the previous connection.
  const before = place;
  place = null;
  // The offer doesn't wait for candidates, because rtpengine learns the address from the browser's checks.
  const response = await ask("POST", "/web", now.localDescription.sdp).then(answered)
    .catch(failure => { place = before; throw failure; });
  place = response.headers.get("Location");
  await now.setRemoteDescription({ type: "answer", sdp: await response.text() });
  await new Promise((done, failed) => {
    now.onconnectionstatechange = () => {
      if (now.connectionState === "connected") done();
      if (now.connectionState === "failed") failed(new Error("No way for the sound was found: a firewall may block UDP."));
    };
    now.onconnectionstatechange();
    setTimeout(() => failed(new Error("No way for the sound was found: a firewall may block UDP.")), 15000);
  });
  now.onconnectionstatechange = () => { if (now === connection && now.connectionState !== "connected") reconnect(); };
}

// Connects again after a change of the network, or after the relay was lost.
function reconnect() {
  return again ??= (async () => {
    say("The connection was lost. It is made again.");
    for (let time = 250, error = null; microphone; time *= 2) {
      if (time > 32000) { end(error.message); break; }
      try { await connect(); await look(); break; }
      catch (failure) { error = failure; if ([401, 409].includes(failure.status)) { end(failure.message); break; } }
      await pause(time);
    }
    again = null;
  })();
}

// Checks whether the member is still in the room. While the controller doesn't answer, the call continues.
async function look() {
  const asked = place;
  if (!asked) return;
  let response;
  try { response = await ask("GET", asked); } catch { return; }
  if (asked !== place || !microphone) return;
  const body = await response.json().catch(() => ({}));
  if (response.status === 409) end("You have joined from another browser.");
  else if (response.status === 404) end("You are no longer in the room.");
  else if (response.status === 401) await answered({ ok: false, status: 401, json: async () => body }).catch(failure => end(failure.message));
  else if (body.state === "lost") reconnect();
  else if (body.state) say(body.state === "waiting" ? "You wait until somebody lets you in." : body.isolated ? "You are isolated: nobody hears you." : "You are in the room.");
}

function end(reason) {
  timers.forEach(clearInterval);
  timers = [];
  microphone?.getTracks().forEach(track => track.stop());
  context?.close();
  connection?.close();
  microphone = connection = place = context = null;
  $("talk").hidden = true;
  $("join").hidden = false;
  $("join").disabled = false;
  say(reason);
  $("join").focus();
}
function leave(reason) {
  if (place) ask("DELETE", place).catch(() => {});
  end(reason);
}

$("join").onclick = async () => {
  $("join").disabled = true;
  say("You are joining.");
  try {
    servers = (await (await answered(await ask("GET", "/web"))).json()).ice_servers;
    await hear();
    await connect();
    $("talk").hidden = false;
    $("join").hidden = true;
    mute(false);
    $("mute").focus();
    await look();
    timers.push(setInterval(look, 2000));
  } catch (failure) { leave(FAILURES[failure.name] || failure.message); }
};
function mute(is) {
  microphone.getTracks().forEach(track => { track.enabled = !is; });
  $("mute").setAttribute("aria-pressed", is);
  $("mute").textContent = is ? "Unmute" : "Mute";
}
$("mute").onclick = () => mute($("mute").getAttribute("aria-pressed") === "false");
$("leave").onclick = () => leave("You have hung up.");
addEventListener("pagehide", () => { if (microphone) leave(""); });
addEventListener("online", () => { if (microphone) reconnect(); });
addEventListener("hashchange", () => location.reload());

ask("GET", "/web").then(answered).then(async response => {
  const { room, name } = await response.json();
  // Unicode's isolates keep the name from reordering the rest of the text.
  $("who").textContent = `Room ${room}, as \u2068${name.replace(/\p{C}/gu, "?")}\u2069`;
  say("Your browser will ask for your microphone.");
}).catch(failure => { $("join").disabled = true; say(failure.message); });
