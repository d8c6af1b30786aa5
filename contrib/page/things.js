// The view of Things: what each is and has, and what an operator does with one.
import {octetsOf} from "/console.js";
import {asks, button, element, living, table, text} from "/elements.js";
import {changeList} from "/files.js";
import {read} from "/usage.js";

const STATES = {
  held: "held",
  none: "no file",
  waits: "file waits",
  due: "due",
  force: "in force"
};

/** The state of a Thing in a word. */
export function stateOf(thing, files, due) {
  const row = files.get(thing.url);
  if (thing.held) return STATES.held;
  if (!row?.approved) return row?.candidate ? STATES.waits : STATES.none;
  return due.has(thing.url) ? STATES.due : STATES.force;
}

/** What changes for a Thing that moves to the URL that waits. */
async function moveWords(thing, files, place) {
  const approved = (url) => files.get(url)?.approved?.sha256;
  if (!approved(thing.pending)) {
    place.replaceChildren("No file of that URL is approved, so behind the move all its packets are dropped.");
    return;
  }
  try {
    const next = read(await octetsOf(approved(thing.pending)));
    const old =
      approved(thing.url) ? read(await octetsOf(approved(thing.url))) : {url: thing.url, from: [], to: []};
    place.replaceChildren(changeList(old, next));
  } catch (fault) {
    place.replaceChildren(fault.message);
  }
}

function pendingCell(thing, files, does) {
  if (!thing.pending) return [];
  const place = element("div", {class: "my-2"});
  const body = {mac: thing.mac, url: thing.pending};
  return [
    text(thing.pending),
    element(
      "div", {class: "deeds"}, button("What changes", () => moveWords(thing, files, place)),
      button("Move", async () => {
        if (!await asks(`Move ${thing.mac} to ${thing.pending}?`, "Move it")) return;
        await does.change("POST", "/things", body, () => `${thing.mac} has moved.`);
      }, "primary")),
    place
  ];
}

function deeds(thing, does) {
  const body = {mac: thing.mac};
  const hold = thing.held ?
    button("Release", () => does.change("DELETE", "/holds", body, () => `${thing.mac} is released.`)) :
    button(
      "Hold",
      () => does.change("POST", "/holds", body, () => `${thing.mac} is held: all its packets are dropped.`));
  const remove = button("Remove", async () => {
    if (!await asks(
          `Remove ${thing.mac}? Its URL and its leases are forgotten until it announces itself again.`,
          "Remove it"))
      return;
    await does.change("DELETE", "/things", body, () => `${thing.mac} is removed.`);
  }, "outline-danger");
  return element("div", {class: "deeds"}, hold, remove);
}

export function thingsView(view, tables, does) {
  const place = element("div", {}, element("p", {class: "quiet"}, "The manager is asked."));
  view.append(place);
  return (name) => {
    if (!tables.things || (name && !["things", "files", "due"].includes(name))) return;
    const files = new Map((tables.files ?? []).map((row) => [row.url, row]));
    const due = new Set(tables.due ?? []);
    const now = Date.now() / 1000;
    const rows = tables.things.map(
      (thing) =>
        [
        element("code", {class: "whole"}, thing.mac), text(thing.url),
        tables.files ? stateOf(thing, files, due) : "",
         thing.leases.map((lease) => element("div", {}, `${lease.address}, ${living(lease.until, now)}`)),
         pendingCell(thing, files, does), deeds(thing, does)]);
    place.replaceChildren(
      rows.length ? table(["Hardware address", "URL", "State", "Leases", "Second URL", ""], rows, "Things") :
                    element("p", {}, "No Thing has announced itself yet."));
    // when it was painted
    requestAnimationFrame(() => requestAnimationFrame(() => performance.mark("first-view")));
  };
}
