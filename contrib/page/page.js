// The page: its views, what the console lists, and when it is asked.
import {changesView} from "/changes.js";
import {ask, Fault, listing, LISTINGS} from "/console.js";
import {element, say} from "/elements.js";
import {filesView} from "/files.js";
import {namesView} from "/names.js";
import {thingsView} from "/things.js";
import {whyView} from "/why.js";

const TURN = 10000;
const VIEWS = {
  things: ["Things", thingsView],
  files: ["Files", filesView],
  names: ["Names", namesView],
  why: ["Why", whyView],
  changes: ["Changes", changesView]
};

const tables = Object.fromEntries(LISTINGS.map((name) => [name, null]));
const texts = {};
let shown = {view: null, refresh: () => {}};
let turn = 0;
let asking = Promise.resolve();

/**
 * Something that changes the store: whether it was done; what it answers is said, and all listings are asked
 * anew.
 */
async function change(method, path, body, words) {
  try {
    const answer = await ask(method, path, body);
    say(words(answer));
    return true;
  } catch (fault) {
    if (!(fault instanceof Fault)) throw fault;
    say(fault.message);
    return false;
  } finally {
    await look(LISTINGS);
  }
}

/** Asks the console for these listings, one after the other, and shows what is new. */
function look(names) {
  asking = asking.then(async () => {
    for (const name of names) {
      try {
        const rows = await listing(name);
        reached(null);
        const text = JSON.stringify(rows);
        if (texts[name] === text) continue;
        texts[name] = text;
        tables[name] = rows;
        shown.refresh(name);
        waits();
      } catch (fault) {
        reached(fault instanceof Fault ? fault.message : `It can't be shown: ${fault.message}.`);
      }
    }
  });
  return asking;
}

/** Says at the head that the manager doesn't answer, or no longer that. */
function reached(fault) {
  const line = document.getElementById("reached");
  line.hidden = fault === null;
  if (fault !== null) line.textContent = `${fault} What stands below may be old.`;
}

const many = (count, one, more) => `${count} ${count === 1 ? one : more}`;

/** How much waits for the operator. */
function waits() {
  const {things, files, due} = tables;
  if (!things || !files || !due) return;
  const parts = [
    [files.filter((row) => row.candidate).length, "file waits", "files wait"],
    [due.length, "file is due", "files are due"],
    [things.filter((thing) => thing.pending).length, "Thing has a second URL", "Things have a second URL"]
  ];
  const said = parts.filter(([count]) => count > 0).map((part) => many(...part));
  document.getElementById("waits").textContent =
    said.length ? `For you: ${said.join(", ")}.` : "Nothing waits for you.";
}

/** Shows the view that the address names. */
function show() {
  const asked = location.hash.slice(1);
  const name = Object.hasOwn(VIEWS, asked) ? asked : "things";
  if (shown.view !== name) {
    const view = document.getElementById("view");
    const [title, made] = VIEWS[name];
    view.replaceChildren(element("h2", {}, title));
    shown = {view: name, refresh: made(view, tables, {change, look})};
    shown.refresh(null);
  }
  for (const link of document.querySelectorAll("#views a")) {
    if (link.hash === `#${name}`)
      link.setAttribute("aria-current", "page");
    else
      link.removeAttribute("aria-current");
  }
}

document.getElementById("views").append(...Object.entries(VIEWS).map(
  ([name, [title]]) =>
    element("li", {class: "nav-item"}, element("a", {class: "nav-link", href: `#${name}`}, title))));
addEventListener("hashchange", show);
show();
await look(LISTINGS);
document.addEventListener("visibilitychange", () => {
  if (document.visibilityState === "visible") look(LISTINGS);
});
setInterval(() => {
  if (document.visibilityState !== "visible") return;
  look([LISTINGS[turn % LISTINGS.length]]);
  turn += 1;
}, TURN);
