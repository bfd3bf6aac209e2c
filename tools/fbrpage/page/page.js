// The page: it takes what the server sends, shows it, and winds it back.

import { Picture } from "./picture.js";
import { apply, inWords, moment, received } from "./state.js";
import { fillCauses, fillDenials, fillInstances, fillOutputs, fillValues } from "./tables.js";

const at = (name) => document.getElementById(name);
// How long lies between two pictures at least, in milliseconds.
const PAUSE = 100;

const page = {
  generation: 0, first: 0, last: 0, missed: 0, status: {}, isConnected: false,
  live: null, liveEvent: null,       // the state at the last event, and that event
  wound: null, woundEvent: null,     // the state that is shown while the page is paused
  wanted: null, isAsking: false,     // the event that was asked for last
  plant: null, plantOf: 0,           // what is fixed of the plant, and of which generation
  chosen: "", isDue: false,
};
const NO_PLANT = { instances: {}, depths: {}, outputs: {}, none: "" };

const picture = new Picture(at("picture"), choose);

function due() {
  if (page.isDue) return;
  page.isDue = true;
  setTimeout(() => requestAnimationFrame(show), PAUSE);
}

function choose(name) {
  page.chosen = name;
  at("instance").value = name;
  due();
}

// What is sent.

function takeSnapshot(snapshot) {
  if (snapshot.generation !== page.generation) {
    goLive();
    page.missed = 0;
  }
  [page.generation, page.first, page.last, page.status] = [snapshot.generation, snapshot.first, snapshot.last, snapshot.status];
  [page.live, page.liveEvent, page.isConnected] = [received(snapshot.state), snapshot.event, true];
  due();
}

function takeEvents(message) {
  for (const event of message.events) {
    apply(page.live, event);
    page.liveEvent = event;
  }
  [page.first, page.last] = [message.first, message.last];
  due();
}

function connect() {
  const source = new EventSource("events");
  const on = (kind, take) => source.addEventListener(kind, (message) => take(JSON.parse(message.data)));
  on("snapshot", takeSnapshot);
  on("events", takeEvents);
  on("status", (status) => { page.status = status; due(); });
  on("missed", (message) => { page.missed += message.missed; });
  source.addEventListener("error", () => {
    page.isConnected = false;
    due();
    // The browser tries again by itself, unless it was refused.
    if (source.readyState === EventSource.CLOSED) setTimeout(connect, 3000);
  });
}

// Winding back.

function pause() {
  if (page.wound !== null || page.live === null) return;
  [page.wound, page.woundEvent] = [received(structuredClone({ ...page.live })), page.liveEvent];
  due();
}

function goLive() {
  [page.wound, page.woundEvent, page.wanted] = [null, null, null];
  due();
}

function windTo(number) {
  pause();
  if (page.wound === null) return;
  page.wanted = Math.min(Math.max(number, page.first), page.last);
  ask();
}

function stepBy(count) {
  windTo((page.wanted ?? (page.wound ?? page.live)?.number ?? 0) + count);
}

async function ask() {
  if (page.isAsking || page.wanted === null) return;
  page.isAsking = true;
  const number = page.wanted;
  try {
    const answer = await fetch(`state?generation=${page.generation}&at=${number}`);
    if (answer.status === 410 && page.wound !== null) page.wanted = Math.max(page.first, number + 1);
    if (answer.ok) takeWound(await answer.json());
  } catch {
    page.isConnected = false;
  }
  page.isAsking = false;
  due();
  if (page.wound !== null && page.wanted !== null && page.wanted !== number) ask();
}

function takeWound(answer) {
  if (page.wound === null || answer.generation !== page.generation) return;
  [page.wound, page.woundEvent] = [received(answer.state), answer.event];
}

// What is shown.

function put(name, text) {
  if (at(name).textContent !== text) at(name).textContent = text;
}

function notices() {
  const { status } = page;
  const found = [];
  if (!page.isConnected) found.push(["fault", "No connection to fbr-page; what is shown is old."]);
  if (status.fault) found.push(["fault", status.fault]);
  if (status.part < 100) found.push(["", `The record is being read; ${status.part} of 100 parts are done.`]);
  if (status.trouble) found.push(["", status.trouble]);
  if (status.notice) found.push(["", status.notice]);
  if (page.plant?.none) found.push(["", page.plant.none]);
  if (page.missed) found.push(["", `${page.missed} events came faster than this page takes them, and were not shown; the last ones can be wound back to.`]);
  if (status.unknown) found.push(["", `${status.unknown} lines of the replay were not understood, the first: ${(status.examples ?? []).join(" | ")}`]);
  return found;
}

function showNotices() {
  const found = notices();
  const place = at("notices");
  while (place.children.length > found.length) place.lastChild.remove();
  found.forEach(([className, text], number) => {
    const line = place.children[number] ?? place.appendChild(document.createElement("p"));
    if (line.className !== className) line.className = className;
    if (line.textContent !== text) line.textContent = text;
  });
}

function showHead(state) {
  const { status } = page;
  put("device", status.device ? `${status.device} · ${status.app}` : "fbr-page");
  document.title = status.device ? `${status.device} · fbr-page` : "fbr-page";
  put("record", status.record ?? "");
  put("clock", `device clock ${moment(page.wound === null ? Math.max(state.time, status.clock ?? 0) : state.time)}`);
  put("mode", page.wound === null ? (page.isConnected ? "live" : "not connected") : "paused");
  at("mode").className = page.wound === null ? (page.isConnected ? "" : "lost") : "paused";
  put("sums", `${page.last} events, ${page.live.denied} denied`);
}

function showTimeline(state) {
  const slider = at("slider");
  [slider.min, slider.max] = [page.first, page.last];
  slider.value = page.wanted ?? state.number;
  put("pause", page.wound === null ? "Pause" : "Go on");
  at("live").disabled = page.wound === null;
  at("back").disabled = state.number <= page.first;
  at("forth").disabled = page.wound === null || state.number >= page.last;
  const event = page.wound === null ? page.liveEvent : page.woundEvent;
  const place = state.number === page.first ? "before the first event that is kept" : "";
  put("event", `event ${state.number} of ${page.last}, kept from ${page.first + 1} on · ${moment(state.time)} · ${event ? inWords(event) : place}`);
  at("event").className = event?.kind === "denied" ? "denied" : "";
}

// Fetches what is fixed of the plant, with its picture.
async function fetchPlant() {
  const { generation } = page;
  if (!page.status.device || page.plantOf === generation) return;
  page.plantOf = generation;
  picture.clear();
  try {
    const plant = await (await fetch("picture")).json();
    if (plant.generation !== page.generation) throw new Error("of another record");
    takePlant(plant);
  } catch {
    setTimeout(() => { page.plantOf = 0; due(); }, 500);
  }
}

function takePlant(plant) {
  page.plant = plant;
  const names = Object.keys(plant.instances);
  at("instance").replaceChildren(...names.map((name) => new Option(name, name)));
  if (!names.includes(page.chosen)) page.chosen = names.find((name) => page.live.states[name] !== undefined) ?? names[0] ?? "";
  at("instance").value = page.chosen;
  if (plant.shapes) picture.draw(plant);
  at("without").hidden = !plant.none;
  due();
}

function show() {
  page.isDue = false;
  showNotices();
  if (page.live === null) return;
  const state = page.wound ?? page.live;
  if (page.plantOf !== page.generation) page.plant = null;
  fetchPlant();
  const plant = page.plant ?? NO_PLANT;
  showHead(state);
  showTimeline(state);
  picture.update(state, plant.depths);
  fillCauses(at("causes"), state);
  fillDenials(at("denials"), at("denied"), state);
  fillOutputs(at("outputs"), state, plant.outputs);
  fillValues(at("values"), at("state"), state, page.chosen);
  if (plant.none) fillInstances(at("instances"), state, plant.instances);
}

// What the reader does.

function onKey(event) {
  const isOther = event.ctrlKey || event.altKey || event.metaKey || event.target.tagName === "SELECT";
  if (isOther || (event.key === " " && event.target.tagName === "BUTTON")) return;
  const step = event.shiftKey ? 100 : 1;
  const does = {
    " ": () => (page.wound === null ? pause() : goLive()),
    ArrowLeft: () => stepBy(-step),
    ArrowRight: () => (page.wound === null ? undefined : stepBy(step)),
    Home: () => windTo(page.first),
    End: goLive,
  }[event.key];
  if (does === undefined) return;
  event.preventDefault();
  does();
}

at("pause").addEventListener("click", () => (page.wound === null ? pause() : goLive()));
at("live").addEventListener("click", goLive);
at("back").addEventListener("click", () => stepBy(-1));
at("forth").addEventListener("click", () => stepBy(1));
at("slider").addEventListener("input", () => windTo(Number(at("slider").value)));
at("instance").addEventListener("change", () => choose(at("instance").value));
document.addEventListener("keydown", onKey);
connect();
