// Elements of the page. Whatever came from elsewhere becomes text, and never HTML.

/** An element with these attributes; a function is what it does when it is used, and null is left out. */
export function element(name, attributes = {}, ...children) {
  const made = document.createElement(name);
  for (const [attribute, value] of Object.entries(attributes)) {
    if (typeof value === "function")
      made.addEventListener(attribute, value);
    else if (typeof value === "boolean")
      made[attribute] = value;
    else if (value !== null)
      made.setAttribute(attribute, value);
  }
  made.append(...children.flat().filter((child) => child !== null && child !== undefined));
  return made;
}

/**
 * A text that somebody chose freely: as it is, with signs that can't be seen, or turn the text, as their
 * number.
 */
export function visible(text) {
  const hidden = /[\p{C}\p{Zl}\p{Zp}]|(?! )\p{Zs}/gu;
  return String(text).replace(hidden, (sign) => `\\u{${sign.codePointAt(0).toString(16)}}`);
}

/** The same as an element of its own, so that its direction stays within it. */
export const text = (value, name = "bdi") => element(name, {}, visible(value));

/** A button; while what it does goes on it is off. */
export function button(words, does, look = "outline-secondary", attributes = {}) {
  const click = async (event) => {
    const pressed = event.currentTarget;
    pressed.disabled = true;
    try {
      await does();
    } finally {
      pressed.disabled = false;
    }
  };
  return element("button", {type: "button", class: `btn btn-sm btn-${look}`, click, ...attributes}, words);
}

/** A table with these heads; each row is a list of cells, each a list of children. */
export function table(heads, rows, caption) {
  const cell = (children, at) => element("td", {"data-label": heads[at] || null}, children);
  return element(
    "table", {}, element("caption", {class: "visually-hidden"}, caption),
    element("thead", {}, element("tr", {}, heads.map((head) => element("th", {scope: "col"}, head)))),
    element("tbody", {}, rows.map((cells) => element("tr", {}, cells.map(cell)))));
}

/** A field of a form with its label. */
export function field(label, name, attributes = {}) {
  return element(
    "label", {}, label,
    element(
      attributes.rows ? "textarea" : "input",
      {name, class: "form-control", autocomplete: "off", spellcheck: "false", ...attributes}));
}

/** A form in a row, which does something with its fields' values and is empty behind it. */
export function form(fields, words, does) {
  const submit = async (event) => {
    event.preventDefault();
    const sent = event.currentTarget;
    if (await does(Object.fromEntries(new FormData(sent)))) sent.reset();
  };
  return element(
    "form", {submit, class: "row-of-fields my-2"}, fields,
    element("button", {class: "btn btn-primary", type: "submit"}, words));
}

/** Says something at the foot of the page for a while. */
export function say(words) {
  const said = document.getElementById("said");
  const line = element("p", {}, visible(words));
  said.append(line);
  setTimeout(() => line.remove(), 15000);
}

/** Asks back; whether the answer is yes. */
export function asks(question, yes) {
  const dialog = document.getElementById("question");
  document.getElementById("asked").textContent = visible(question);
  document.getElementById("yes").textContent = yes;
  dialog.returnValue = "no";
  dialog.showModal();
  return new Promise((answered) => {
    dialog.addEventListener("close", () => answered(dialog.returnValue === "yes"), {once: true});
  });
}

/** A moment in seconds, in the browser's zone. */
export function moment(seconds) {
  const date = new Date(seconds * 1000);
  return Number.isNaN(date.getTime()) ?
    `${seconds}` :
    date.toLocaleString("en-GB", {dateStyle: "medium", timeStyle: "short"});
}

/** For how long something still lives. */
export function living(until, now) {
  if (until === null) return "for ever";
  const left = until - now;
  if (left <= 0) return "ended";
  const [many, word] =
    [[86400, "day"], [3600, "hour"], [60, "minute"], [1, "second"]].find(([size]) => left >= size);
  const count = Math.floor(left / many);
  return `${count} ${word}${count === 1 ? "" : "s"} left`;
}
