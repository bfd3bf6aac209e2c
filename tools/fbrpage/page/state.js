// The state of a device, and how an event changes it: as state.py of the server does.

export const CAUSES = 50;
export const DENIALS = 50;
const TABLES = { s: "states", v: "values", q: "queues" };

function deny(state, event) {
  state.denied += event.count;
  const same = (it) => it.what === event.what && it.code === event.code && it.why === event.why;
  const found = state.denials.find(same);
  if (found) {
    found.count += event.count;
    found.time = event.time;
    return;
  }
  state.denials.push({ what: event.what, code: event.code, why: event.why, count: event.count, time: event.time });
  if (state.denials.length > DENIALS) {
    let oldest = 0;
    state.denials.forEach((it, at) => { if (it.time < state.denials[oldest].time) oldest = at; });
    state.forgotten += state.denials[oldest].count;
    state.denials.splice(oldest, 1);
  }
}

function followCause(state, event) {
  if (event.opens !== undefined) {
    state.causes.push({ cause: event.cause, source: event.opens, bound: event.bound, time: event.time, steps: 0, ran: 0, last: "", ended: null });
    if (state.causes.length > CAUSES) state.causes.splice(0, state.causes.length - CAUSES);
  }
  const cause = state.causes.findLast((it) => it.cause === event.cause);
  if (cause === undefined) return;
  if (event.kind === "ran") {
    cause.steps += event.steps;
    cause.ran += 1;
    cause.last = `${event.at}.${event.event}`;
  }
  if (event.ended !== undefined) {
    [cause.steps, cause.bound] = event.ended;
    cause.ended = event.time;
  }
}

// What comes from the server becomes keys of these tables, so they have no prototype whose names could be meant.
export function received(state) {
  for (const table of ["states", "values", "queues", "counts", "wrote"]) state[table] = Object.assign(Object.create(null), state[table]);
  return state;
}

export function apply(state, event) {
  state.number = event.number;
  state.time = event.time;
  for (const [kind, name, value] of event.changes ?? []) state[TABLES[kind]][name] = value;
  if (event.kind === "denied") deny(state, event);
  if (event.kind === "ran") {
    state.counts[event.at] = (state.counts[event.at] ?? 0) + 1;
    state.last = [event.at, event.event];
  }
  if (event.wrote !== undefined) state.wrote[event.wrote[0]] = [event.wrote[1], event.time];
  followCause(state, event);
}

export function moment(time) {
  return `${Math.floor(time / 1000)}.${String(time % 1000).padStart(3, "0")} s`;
}

// An event in words.
export function inWords(event) {
  const parts = [];
  if (event.kind === "begins") parts.push(`${event.opens} begins cause ${event.cause}, of at most ${event.bound} steps`);
  if (event.kind === "ran") parts.push(`${event.at}.${event.event} of cause ${event.cause}: ${event.steps} ${event.steps === 1 ? "step" : "steps"}`);
  if (event.kind === "denied") parts.push(`${event.count === 1 ? event.what : `${event.count} ${event.what}`} denied ${event.code || ""}: ${event.why}`);
  for (const [kind, name, value] of event.changes ?? []) parts.push(`${name}${{ s: " in ", v: " = ", q: " queue " }[kind]}${value}`);
  if (event.wrote !== undefined) parts.push(`OUTPUT ${event.wrote[0]} writes ${event.wrote[1]}`);
  if (event.sent !== undefined) parts.push(`sent to ${event.sent}`);
  if (event.ended !== undefined) parts.push(`cause ${event.cause} has ended after ${event.ended[0]} of ${event.ended[1]} steps`);
  return parts.join("; ");
}
