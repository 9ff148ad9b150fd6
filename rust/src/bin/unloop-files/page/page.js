"use strict";
// Sorts, searches and filters the overview; looks up what the sheet and the drawing show and say of a setting; moves drawings; leads from a
// gate's line to its copies and back. No value is computed here: all were stored when the page was written.

function overview() {
  const table = document.getElementById("overview");
  if (!table) return;
  const rows = [...table.tBodies[0].rows];
  sorting(table, rows);
  filtering(rows);
}

// Columns are sorted by a click, and by another one downwards.
function sorting(table, rows) {
  const key = (row, column) => {
    const cell = row.cells[column];
    const value = cell.dataset.value ?? cell.textContent;
    return /^-?\d+$/.test(value) ? Number(value) : value;
  };
  const compare = (a, b) => (typeof a === "number" && typeof b === "number" ? a - b : String(a).localeCompare(String(b)));
  [...table.tHead.rows[0].cells].forEach((head, column) => {
    head.querySelector("button").addEventListener("click", () => {
      const down = head.getAttribute("aria-sort") === "ascending";
      for (const other of table.tHead.rows[0].cells) other.removeAttribute("aria-sort");
      head.setAttribute("aria-sort", down ? "descending" : "ascending");
      rows.sort((a, b) => (down ? -1 : 1) * compare(key(a, column), key(b, column)));
      table.tBodies[0].append(...rows);
    });
  });
}

// A row is shown if it has every word and, of each group of boxes in which some are checked, one of those states.
function filtering(rows) {
  const search = document.getElementById("search");
  const groups = [...document.querySelectorAll(".filters")].map((group) => [...group.querySelectorAll("input")]);
  const filter = () => {
    const words = search.value.toLowerCase().split(/\s+/).filter(Boolean);
    const checked = groups.map((boxes) => boxes.filter((box) => box.checked).map((box) => box.value));
    const wanted = checked.filter((states) => states.length > 0);
    for (const row of rows) {
      const text = (row.cells[0].textContent + " " + row.cells[1].textContent).toLowerCase();
      const own = row.dataset.states.split(" ");
      row.hidden = !words.every((word) => text.includes(word)) || !wanted.every((states) => states.some((state) => own.includes(state)));
    }
    const count = rows.filter((row) => !row.hidden).length;
    document.getElementById("found").textContent = words.length || wanted.length ? `${count} of ${rows.length}` : "";
  };
  search.addEventListener("input", filter);
  groups.flat().forEach((box) => box.addEventListener("change", filter));
  // On the way back here a browser fills the box again, after this has run and without an input event.
  addEventListener("pageshow", filter);
}

// What is said of a setting by its stored state; with open pins it is not complete, and then neither settled nor not.
function said(state, open, undefinedPorts) {
  const pins = open.join(", ");
  const ports = undefinedPorts.join(", ");
  switch (state) {
    case "s": return "Settled: every output is 0 or 1.";
    case "n": return `Not settled: ${ports} undefined.`;
    case "d": return `With ${pins} open: every output is 0 or 1 all the same.`;
    case "u": return `With ${pins} open: ${ports} undefined.`;
    default: return open.length ? `With ${pins} open: every such setting never comes, by the never lines.` : "This setting never comes, by a never line.";
  }
}

// Gives an element the class of its value, in the place of another one.
function colour(element, letter) {
  element.classList.remove("v0", "v1", "vu");
  element.classList.add("v" + letter);
}

const shownAs = (letter) => (letter === "u" ? "?" : letter);

function sheet() {
  const stored = document.getElementById("values");
  if (!stored) return;
  const values = JSON.parse(stored.textContent);
  const pins = [...document.querySelectorAll(".pin")];
  const ports = [...document.querySelectorAll(".port")];
  const setting = pins.map((_, input) => (values.start >> input) & 1);
  const draw = drawing(values);
  const show = (element, letter, name) => {
    element.textContent = shownAs(letter);
    colour(element, letter);
    if (name) element.setAttribute("aria-label", `${name}: ${letter === "u" ? "undefined" : letter}`);
  };
  const update = () => {
    pins.forEach((pin, input) => show(pin, "01u"[setting[input]], values.inputs[input]));
    const row = setting.reduceRight((number, digit) => number * values.base + digit, 0);
    const shown = values.rows.slice(row * ports.length, (row + 1) * ports.length);
    ports.forEach((port, output) => show(port, shown[output]));
    const open = values.inputs.filter((_, input) => setting[input] === 2);
    const undefinedPorts = values.outputs.filter((_, output) => shown[output] === "u");
    document.getElementById("verdict").textContent = said(values.states[row], open, undefinedPorts);
    draw(setting, shown, row);
  };
  clicking(pins, setting, values.base, update);
  addresses(setting, values.base, update);
}

// Pins are changed by clicks and keys; the address follows them.
function clicking(pins, setting, base, update) {
  pins.forEach((pin, input) => {
    const set = (digit) => {
      if (digit < 0 || digit >= base) return;
      setting[input] = digit;
      history.replaceState(null, "", "#sheet=" + setting.map((digit) => "01u"[digit]).join(""));
      document.getElementById("asked").hidden = true;
      update();
    };
    pin.addEventListener("click", () => set((setting[input] + 1) % base));
    pin.addEventListener("keydown", (event) => set("01u".indexOf(event.key)));
  });
}

// A link such as rate.html#sheet=0001 opens with the pins so; u is undefined. One that names no setting of this sheet is told, and not taken.
function addresses(setting, base, update) {
  const notice = document.getElementById("asked");
  const take = () => {
    const asked = /^#sheet=(.*)$/.exec(location.hash);
    const digits = asked ? [...asked[1]].map((letter) => "01u".indexOf(letter)) : [];
    const taken = digits.length === setting.length && digits.every((digit) => digit >= 0 && digit < base);
    notice.hidden = !asked || taken;
    const letters = base === 3 ? "0, 1 or u" : "0 or 1 (no u with more than eight inputs)";
    const needed = `it needs ${letters} for each pin, ${setting.length} in all`;
    if (!notice.hidden) notice.textContent = `The address asks for ${asked[1]}, which is no setting here: ${needed}.`;
    if (taken) digits.forEach((digit, input) => { setting[input] = digit; });
    update();
  };
  addEventListener("hashchange", take);
  take();
}

// Shows values in the drawing: each node's, which the wires that leave it have too, and which gates open their loop. What such a gate reads of
// its loop plays no part.
function drawing(values) {
  const nodes = [...document.querySelectorAll(".drawing .node")].map((node) => ({
    node,
    kind: node.id[0],
    number: Number(node.id.slice(1)),
    text: [...node.querySelectorAll("text")].find((line) => /= .$/.test(line.textContent)),
    leaving: document.querySelectorAll(`.drawing .from_${node.id}`),
    looped: document.querySelectorAll(`.drawing .inloop.to_${node.id}`),
  }));
  // Two gates a letter, five states each: 0, 1, undefined, and 0 or 1 where the gate opens its loop.
  const gateState = (row, gate) => {
    const pair = parseInt(values.gates[row * values.letters + (gate >> 1)], 36);
    return gate % 2 ? Math.floor(pair / 5) : pair % 5;
  };
  return (setting, shown, row) => {
    const state = { i: (input) => setting[input], o: (output) => "01u".indexOf(shown[output]), g: (gate) => gateState(row, gate) };
    for (const { node, kind, number, text, leaving, looped } of nodes) {
      const found = state[kind](number);
      const letter = "01u01"[found];
      text.textContent = text.textContent.replace(/.$/, shownAs(letter));
      [node, ...leaving].forEach((element) => colour(element, letter));
      node.classList.toggle("opens", found > 2);
      looped.forEach((wire) => wire.classList.toggle("idle", found > 2));
    }
  };
}

// Drawings become larger and smaller by buttons, keys and the wheel with Ctrl.
function zooming() {
  for (const drawing of document.querySelectorAll(".drawing")) {
    const svg = drawing.querySelector("svg");
    const fitting = svg.style.cssText;
    const full = svg.width.baseVal.value;
    // The point x, y of the drawing's window stays where it is.
    const resize = (wanted, x, y) => {
      const before = svg.getBoundingClientRect().width;
      const width = Math.min(Math.max(wanted, 120), 8 * full);
      const [left, top] = [drawing.scrollLeft + x, drawing.scrollTop + y].map((place) => (place * width) / before);
      svg.style.cssText = `width: ${width}px; max-width: none`;
      drawing.scrollTo(left - x, top - y);
    };
    const by = (factor, x = drawing.clientWidth / 2, y = drawing.clientHeight / 2) => resize(svg.getBoundingClientRect().width * factor, x, y);
    const steps = {
      in: () => by(1.25),
      out: () => by(0.8),
      fit: () => { svg.style.cssText = fitting; },
      full: () => resize(full, 0, 0),
    };
    for (const button of drawing.closest("section").querySelectorAll("[data-zoom]")) button.addEventListener("click", steps[button.dataset.zoom]);
    const keys = { "+": "in", "=": "in", "-": "out", "0": "fit", "1": "full" };
    drawing.addEventListener("keydown", (event) => {
      if (!event.ctrlKey && !event.metaKey && keys[event.key]) steps[keys[event.key]]();
    });
    drawing.addEventListener("wheel", (event) => {
      if (!event.ctrlKey) return;
      event.preventDefault();
      const { left, top } = drawing.getBoundingClientRect();
      by(Math.exp(-event.deltaY / 500), event.clientX - left, event.clientY - top);
    }, { passive: false });
    dragging(drawing);
  }
}

// A drawing is moved by dragging it; a touch does that by itself.
function dragging(drawing) {
  let held = null;
  let moved = false;
  drawing.addEventListener("pointerdown", (event) => {
    if (event.button !== 0 || event.pointerType === "touch") return;
    held = { x: event.clientX + drawing.scrollLeft, y: event.clientY + drawing.scrollTop, from: event };
    moved = false;
  });
  addEventListener("pointermove", (event) => {
    if (!held) return;
    moved ||= Math.hypot(event.clientX - held.from.clientX, event.clientY - held.from.clientY) > 4;
    drawing.classList.toggle("moving", moved);
    if (moved) drawing.scrollTo(held.x - event.clientX, held.y - event.clientY);
  });
  addEventListener("pointerup", () => {
    held = null;
    drawing.classList.remove("moving");
  });
  // The click at the end of a drag is none on a gate.
  drawing.addEventListener("click", (event) => { if (moved) event.stopPropagation(); }, true);
}

// A click on a gate's name in a line leads to the line that its link names, one on a gate in the drawing tells its line; all that is of the same
// line of the original is marked.
function tracing() {
  const ofLine = (element) => [...element.classList].find((name) => /^of\d+$/.test(name));
  const mark = (element) => {
    for (const marked of document.querySelectorAll(".traced")) marked.classList.remove("traced");
    for (const part of document.querySelectorAll("." + ofLine(element))) part.classList.add("traced");
  };
  for (const link of document.querySelectorAll(".text a")) {
    link.addEventListener("click", (event) => {
      event.preventDefault(); // the address is the sheet's
      mark(link.closest("li"));
      document.querySelector(link.getAttribute("href")).querySelector("a").focus();
    });
  }
  for (const gate of document.querySelectorAll(".drawing .gate")) {
    gate.addEventListener("click", () => {
      mark(gate);
      const row = ofLine(gate).slice(2);
      const line = document.getElementById("t" + row);
      const link = document.createElement("a");
      link.href = "#t" + row;
      link.textContent = "Line " + row;
      link.addEventListener("click", (event) => {
        event.preventDefault();
        line.scrollIntoView({ block: "center" });
      });
      document.getElementById("traced").replaceChildren(link, ": " + line.textContent);
    });
  }
}

overview();
sheet();
zooming();
tracing();
