// The tables beside the picture. Rows are used again, so there are never more than are shown.

import { moment } from "./state.js";

// As many rows of values are shown of an instance, and of instances without a picture.
const MOST = 1000;

function put(cell, value) {
  const text = String(value ?? "");
  if (cell.textContent !== text) cell.textContent = text;
}

// Brings a body to these rows, each an array of texts; `classes` are those of its cells.
export function fill(body, rows, classes, rowClass = "") {
  while (body.rows.length > rows.length) body.deleteRow(-1);
  rows.forEach((row, at) => {
    if (body.rows.length <= at) {
      const made = body.insertRow();
      made.className = rowClass;
      for (const it of classes) {
        const cell = made.insertCell();
        cell.className = it;
        if (it === "bar") cell.append(document.createElement("meter"));
      }
    }
    const cells = body.rows[at].cells;
    row.forEach((value, place) => (classes[place] === "bar" ? measure(cells[place].firstChild, value) : put(cells[place], value)));
  });
}

function measure(meter, [value, most]) {
  if (meter.max !== most) meter.max = most;
  if (meter.value !== value) meter.value = value;
}

export function fillCauses(body, state) {
  const rows = state.causes.toReversed().map((it) => {
    const ended = it.ended === null ? "no" : moment(it.ended);
    return [it.cause, it.source, moment(it.time), `${it.steps} of ${it.bound ?? "?"}`, [it.steps, it.bound ?? (it.steps || 1)], ended, it.last];
  });
  fill(body, rows, ["number", "", "number", "number", "bar", "number", ""]);
}

export function fillDenials(body, sum, state) {
  const rows = state.denials.toSorted((a, b) => b.time - a.time).map((it) => [it.what, it.code || "?", it.why, it.count, moment(it.time)]);
  fill(body, rows, ["", "number", "", "number", "number"], "denied");
  put(sum, state.forgotten ? `${state.denied}, ${state.forgotten} of them of kinds no longer listed` : state.denied);
}

export function fillOutputs(body, state, outputs) {
  const rows = Object.entries(outputs).map(([number, name]) => {
    const [values, time] = state.wrote[number] ?? ["", null];
    return [number, name, values, time === null ? "" : moment(time)];
  });
  fill(body, rows.slice(0, MOST), ["number", "", "", "number"]);
}

// The variables of an instance, other than those of instances within it.
function variablesOf(instance, state) {
  const before = `${instance}.`;
  return Object.entries(state.values).filter(([name]) => name.startsWith(before) && !name.slice(before.length).includes("."));
}

export function fillValues(body, place, state, instance) {
  put(place, state.states[instance] === undefined ? "" : `in ${state.states[instance]}`);
  fill(body, variablesOf(instance, state).slice(0, MOST).map(([name, value]) => [name.slice(instance.length + 1), value]), ["", ""]);
}

export function fillInstances(body, state, instances) {
  const rows = Object.entries(instances).slice(0, MOST).map(([name, [what]]) => {
    const values = variablesOf(name, state).map(([path, value]) => `${path.slice(name.length + 1)} = ${value}`);
    return [name, what, state.states[name] ?? "", state.counts[name] ?? 0, values.join(", ")];
  });
  fill(body, rows, ["", "", "", "number", ""]);
  [...body.rows].forEach((row, at) => row.classList.toggle("last", state.last !== null && rows[at][0] === state.last[0]));
}
