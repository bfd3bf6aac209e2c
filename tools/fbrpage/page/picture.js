// The picture of a device. Its shapes are put together one by one, and each text goes in as text.

const SVG = "http://www.w3.org/2000/svg";
const TAKEN = {
  polygon: ["points", "stroke-width", "stroke-dasharray"],
  polyline: ["points", "stroke-width", "stroke-dasharray"],
  path: ["d", "stroke-width", "stroke-dasharray"],
  ellipse: ["cx", "cy", "rx", "ry", "stroke-width", "stroke-dasharray"],
  text: ["x", "y", "text-anchor", "font-size", "font-weight", "font-style"],
};
const CLASSES = { s: "state", c: "count", v: "value", q: "queue" };
// As many pixels are a point of the drawing at least and at most; in between it is as wide as the page.
const [SMALLEST, LARGEST] = [1, 1.3];

function made(tag, attributes, text, className) {
  const element = document.createElementNS(SVG, tag);
  for (const [name, value] of Object.entries(attributes)) element.setAttribute(name, value);
  if (className) element.setAttribute("class", className);
  if (text) element.textContent = text;
  return element;
}

function shape([tag, className, attributes, text]) {
  if (!Object.hasOwn(TAKEN, tag)) return null;
  const taken = TAKEN[tag].filter((name) => Object.hasOwn(attributes, name)).map((name) => [name, attributes[name]]);
  return made(tag, Object.fromEntries(taken), tag === "text" ? text : "", className);
}

function short(text, most) {
  return text.length > most ? `${text.slice(0, most - 1)}…` : text;
}

// The text at a place of the picture, and whether a queue is full.
function textOf(slot, state, depths) {
  if (slot.kind === "s") return [state.states[slot.instance] ?? "", false];
  if (slot.kind === "c") return [`×${state.counts[slot.instance] ?? 0}`, false];
  if (slot.kind === "v") return [state.values[slot.name] ?? "", false];
  const [length, depth] = [state.queues[slot.name] ?? 0, depths[slot.name] ?? 0];
  return [`${slot.name} · queue ${length} of ${depth}`, length >= depth];
}

export class Picture {
  constructor(place, choose) {
    [this.place, this.choose] = [place, choose];
    this.clear();
  }

  clear() {
    this.place.replaceChildren();
    [this.slots, this.nodes, this.marked] = [[], new Map(), null];
  }

  draw(picture) {
    this.clear();
    const [width, height] = picture.box.slice(2);
    const scale = Math.min(LARGEST, Math.max(SMALLEST, (this.place.parentNode.clientWidth - 40) / width));
    const svg = made("svg", { viewBox: `0 0 ${width} ${height}`, width: width * scale, height: height * scale, role: "img" }, "", "");
    const group = made("g", { transform: `translate(${picture.move[0]} ${picture.move[1]})` }, "", "");
    group.append(...picture.shapes.map(shape).filter(Boolean));
    for (const [name, shapes] of Object.entries(picture.nodes)) {
      const node = made("g", {}, "", "node");
      node.append(...shapes.map(shape).filter(Boolean));
      node.addEventListener("click", () => this.choose(name));
      this.nodes.set(name, node);
      group.append(node);
    }
    for (const slot of picture.slots) {
      const size = slot.kind === "q" ? 12 : 9;
      const element = made("text", { x: slot.x, y: slot.y, "text-anchor": slot.anchor, "font-size": size }, "", CLASSES[slot.kind]);
      const text = document.createTextNode("");
      const title = made("title", {}, "", "");
      element.append(text, title);
      (this.nodes.get(slot.instance) ?? group).append(element);
      this.slots.push({ slot, element, text, title, shown: null });
    }
    svg.append(group);
    this.place.append(svg);
  }

  update(state, depths) {
    for (const it of this.slots) {
      const [text, isFull] = textOf(it.slot, state, depths);
      if (text === it.shown) continue;
      it.shown = text;
      it.text.data = short(text, it.slot.most);
      it.title.textContent = it.slot.kind === "q" ? text : `${it.slot.name}: ${text}`;
      if (it.slot.kind === "q") it.element.setAttribute("class", isFull ? "queue full" : "queue");
    }
    const last = state.last === null ? null : this.nodes.get(state.last[0]) ?? null;
    if (last === this.marked) return;
    this.marked?.setAttribute("class", "node");
    last?.setAttribute("class", "node last");
    this.marked = last;
  }
}
