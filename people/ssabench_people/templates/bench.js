"use strict";
// The page of a bench. A node is [part of the way, value or null, owners, children, is an item]; rows are made when they are seen.
class Ways { // ways that are marked: whether one is among them, or stands below another
  constructor(ways) {
    this.all = new Set(ways);
    this.sorted = [...this.all].sort();
  }
  has(way) {
    return this.all.has(way);
  }
  hasBelow(way) {
    return [`${way}.`, `${way}[`].some((beginning) => {
      let [low, high] = [0, this.sorted.length];
      while (low < high) {
        const middle = (low + high) >> 1;
        if (this.sorted[middle] < beginning) low = middle + 1;
        else high = middle;
      }
      return low < this.sorted.length && this.sorted[low].startsWith(beginning);
    });
  }
}

const data = JSON.parse(document.getElementById("data").textContent);
const AT_ONCE = 200; // children that a branch shows at a time
const ROWS = 800; // rows that are opened at once
const FEW = 300; // fields of an object that is opened from the start
const element = (id) => document.getElementById(id);
const tree = element("tree");
const opened = new Map(); // the way of an open branch, and which of its children it shows: [the first, the one after the last]
const fieldCounts = new Map(); // node: fields below it
const ownedCounts = new Map(); // manager: (node: its places at and below it)
const conflicts = new Ways(data.manifests.flatMap((one) => one.conflicts.map((conflict) => conflict.way)));
let step = data.present;
let pinned = null;
let hovered = null;

function fields(number) {
  if (!fieldCounts.has(number)) {
    const children = data.nodes[number][3];
    fieldCounts.set(number, children.length ? children.reduce((sum, child) => sum + fields(child), 0) : 1);
  }
  return fieldCounts.get(number);
}

function owned(manager, number) {
  if (!ownedCounts.has(manager)) ownedCounts.set(manager, new Map());
  const counts = ownedCounts.get(manager);
  if (!counts.has(number)) {
    const [, , owners, children] = data.nodes[number];
    counts.set(number, children.reduce((sum, child) => sum + owned(manager, child), owners.includes(manager) ? 1 : 0));
  }
  return counts.get(number);
}

function made(kind, className, text) {
  const one = document.createElement(kind);
  if (className) one.className = className;
  if (text !== undefined) one.textContent = text;
  return one;
}

function letters(manager) {
  return manager < 26 ? String.fromCharCode(65 + manager) : String.fromCharCode(64 + Math.floor(manager / 26)) + String.fromCharCode(65 + (manager % 26));
}

function mark(manager) {
  const one = made("span", "mark", letters(manager));
  one.style.setProperty("--hue", Math.round((manager * 137.5) % 360));
  one.title = data.managers[manager];
  return one;
}

function changedWays() {
  return new Ways(step === 0 ? [] : data.steps[step - 1].changes.map((change) => change.way));
}

function label(node) {
  const [part, value, , children, isItem] = node;
  const name = made("span", "name");
  if (isItem && children.length) {
    name.append("- ", made("span", "item", `# ${part}`));
  } else {
    name.textContent = isItem ? "-" : `${part.replace(/^\./, "").replace(/^\[(".*")\]$/, "$1")}:`;
  }
  return children.length ? [name] : [name, made("span", "value", value)];
}

function row(number, way, depth, changed) {
  const node = data.nodes[number];
  const [, , owners, children] = node;
  const one = made("div", "row");
  one.setAttribute("role", "treeitem");
  one.setAttribute("aria-level", depth + 1);
  one.tabIndex = -1;
  one.style.setProperty("--depth", depth);
  Object.assign(one, { number, way });
  one.dataset.way = way;
  one.append(...label(node));
  const marks = made("span", "marks");
  if (children.length) {
    const open = opened.has(way);
    one.setAttribute("aria-expanded", open);
    if (!open) marks.append(made("span", "below", `${fields(number)} below`));
  } else if (!owners.length) {
    marks.append(made("span", "nobody", "nobody"));
  }
  marks.append(...owners.map(mark));
  one.append(marks);
  one.setAttribute("aria-label", `${way} ${children.length ? "" : node[1]} ${owners.map((manager) => data.managers[manager]).join(", ") || (children.length ? "" : "nobody")}`);
  const isMarked = (ways) => ways.has(way) || (children.length && !opened.has(way) && ways.hasBelow(way));
  if (isMarked(changed)) one.classList.add("changed");
  if (isMarked(conflicts)) one.classList.add("in-conflict");
  return one;
}

function addRows(number, way, depth, changed, rows) {
  const children = data.nodes[number][3];
  const [first, end] = opened.get(way) || [0, children.length];
  if (first > 0) rows.push(more(way, depth, first, [Math.max(0, first - AT_ONCE), end]));
  for (const child of children.slice(first, end)) {
    const below = way + data.nodes[child][0];
    rows.push(row(child, below, depth, changed));
    if (opened.has(below)) addRows(child, below, depth + 1, changed, rows);
  }
  if (children.length > end) rows.push(more(way, depth, children.length - end, [first, end + AT_ONCE]));
}

// A row that stands for children that aren't shown; `next` is what is shown after it was pressed.
function more(way, depth, count, next) {
  const one = made("div", "row more", `.. ${count} more`);
  one.setAttribute("role", "treeitem");
  one.setAttribute("aria-level", depth + 1);
  one.tabIndex = -1;
  one.style.setProperty("--depth", depth);
  Object.assign(one, { moreOf: way, next, way: `${way} more from ${next[0]}` });
  return one;
}

function drawTree() {
  const focused = document.activeElement && document.activeElement.closest("#tree .row");
  const way = focused ? focused.way : null;
  const rows = [];
  addRows(data.states[step], "", 0, changedWays(), rows);
  tree.replaceChildren(...rows);
  const again = way === null ? undefined : rows.find((one) => one.way === way);
  if (rows.length) (again || rows[0]).tabIndex = 0;
  if (again) again.focus({ preventScroll: true });
  light();
}

function light() {
  const manager = hovered === null ? pinned : hovered;
  for (const one of tree.children) {
    const isOpen = one.getAttribute("aria-expanded") === "true";
    const here = one.number === undefined ? false : isOpen ? data.nodes[one.number][2].includes(manager) : manager !== null && owned(manager, one.number) > 0;
    one.classList.toggle("lit", here);
  }
  [...element("managers").children].forEach((button, number) => button.setAttribute("aria-pressed", number === pinned));
}

function drawManagers() {
  const buttons = data.managers.map((name, number) => {
    const button = made("button");
    button.append(mark(number), ` ${name} `, made("span", "below"));
    button.addEventListener("click", () => pin(number));
    button.addEventListener("mouseenter", () => { hovered = number; light(); });
    button.addEventListener("mouseleave", () => { hovered = null; light(); });
    return button;
  });
  element("managers").replaceChildren(...buttons);
}

function pin(number) {
  pinned = pinned === number ? null : number;
  light();
}

function drawStep() {
  const root = data.states[step];
  element("slider").value = step;
  element("step").textContent = step === 0 ? `0 of ${data.steps.length}: as it was ${data.leftOut ? `after ${data.leftOut} earlier ones` : "at first"}` : `${step} of ${data.steps.length}: ${data.steps[step - 1].heading}`;
  element("back").disabled = step === 0;
  element("on").disabled = step === data.steps.length;
  element("about").textContent = `${fields(root)} fields, ${data.managers.filter((_, number) => owned(number, root)).length} managers${step === data.present ? "" : "; not as it is now"}`;
  [...element("managers").children].forEach((button, number) => { button.lastChild.textContent = owned(number, root); });
  const changes = step === 0 ? [] : data.steps[step - 1].changes;
  const told = changes.slice(0, AT_ONCE).map((change) => {
    const one = made("li", change.what.replace(" ", "-"));
    const way = made("button", "", change.way);
    way.dataset.way = change.way;
    one.append(made("span", "what", change.what), " ", way, ` ${change.told}`);
    return one;
  });
  if (changes.length > AT_ONCE) told.push(made("li", "", `and ${changes.length - AT_ONCE} more`));
  if (!changes.length) told.push(made("li", "", step === 0 ? "before the first command" : "nothing"));
  document.querySelector("#changes ul").replaceChildren(...told);
  drawTree();
}

function go(to) {
  step = Math.max(0, Math.min(data.steps.length, to));
  drawStep();
}

function toggle(one) {
  if (one.moreOf !== undefined) opened.set(one.moreOf, one.next);
  else if (!one.hasAttribute("aria-expanded")) return;
  else if (opened.has(one.way)) opened.delete(one.way);
  else opened.set(one.way, [0, AT_ONCE]);
  one.focus({ preventScroll: true });
  drawTree();
}

function openBelow(number, way, left) {
  for (const child of data.nodes[number][3].slice(0, AT_ONCE)) {
    const below = way + data.nodes[child][0];
    if (left.count <= 0 || !data.nodes[child][3].length) continue;
    left.count -= Math.min(AT_ONCE, data.nodes[child][3].length);
    opened.set(below, [0, AT_ONCE]);
    openBelow(child, below, left);
  }
}

function openAll() {
  openBelow(data.states[step], "", { count: ROWS });
  drawTree();
}

// Opens the branches above a place and goes to it, or to the nearest place above it that is there.
function show(way) {
  let number = data.states[step];
  let here = "";
  for (;;) {
    const index = data.nodes[number][3].findIndex((child) => isBeginning(here + data.nodes[child][0], way));
    if (index < 0) break;
    const [first, end] = opened.get(here) || [0, 0];
    if (here !== "" && (index < first || index >= end)) opened.set(here, [index - (index % AT_ONCE), index - (index % AT_ONCE) + AT_ONCE]);
    number = data.nodes[number][3][index];
    here += data.nodes[number][0];
  }
  drawTree();
  const found = [...tree.children].find((one) => one.way === here);
  if (found) {
    found.focus();
    found.scrollIntoView({ block: "center" });
  }
}

function isBeginning(beginning, way) {
  return way.startsWith(beginning) && (way.length === beginning.length || ".[".includes(way[beginning.length]));
}

function move(one, key) {
  const rows = [...tree.children];
  const place = rows.indexOf(one);
  const level = Number(one.getAttribute("aria-level"));
  const open = one.getAttribute("aria-expanded");
  if (key === "ArrowRight" && open === "false") return toggle(one);
  if (key === "ArrowLeft" && open === "true") return toggle(one);
  let to = { ArrowDown: place + 1, ArrowUp: place - 1, Home: 0, End: rows.length - 1, ArrowRight: place + (open === "true") }[key];
  if (key === "ArrowLeft") {
    to = rows.slice(0, place).findLastIndex((other) => Number(other.getAttribute("aria-level")) < level);
  }
  if (rows[to]) {
    one.tabIndex = -1;
    rows[to].tabIndex = 0;
    rows[to].focus();
  }
}

tree.addEventListener("click", (event) => {
  const one = event.target.closest(".row");
  if (one) toggle(one);
  if (one && one.isConnected) one.focus({ preventScroll: true });
});
tree.addEventListener("keydown", (event) => {
  const one = event.target.closest(".row");
  if (!one || event.ctrlKey || event.metaKey || event.altKey) return;
  if (event.key === "Enter" || event.key === " ") toggle(one);
  else if (/^(Arrow(Up|Down|Left|Right)|Home|End)$/.test(event.key)) move(one, event.key);
  else return;
  event.preventDefault();
});
document.addEventListener("keydown", (event) => {
  if (event.ctrlKey || event.metaKey || event.altKey) return;
  if (event.key === "[") go(step - 1);
  else if (event.key === "]") go(step + 1);
  else if (event.key === "o") openAll();
  else if (event.key === "c") closeAll();
  else if (/^[1-9]$/.test(event.key) && Number(event.key) <= data.managers.length) pin(Number(event.key) - 1);
  else if (event.key === "Escape") { pinned = null; light(); }
});
document.querySelector("aside").addEventListener("click", (event) => {
  const way = event.target.closest("[data-way]");
  if (way) show(way.dataset.way);
});
element("slider").addEventListener("input", (event) => go(Number(event.target.value)));
element("back").addEventListener("click", () => go(step - 1));
element("on").addEventListener("click", () => go(step + 1));
element("open-all").addEventListener("click", openAll);
element("close-all").addEventListener("click", closeAll);

function closeAll() {
  opened.clear();
  drawTree();
}

element("slider").max = data.steps.length;
drawManagers();
if (fields(data.states[step]) <= FEW) openBelow(data.states[step], "", { count: ROWS });
drawStep();
