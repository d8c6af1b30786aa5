// The view of classes, local networks and names; what approved files ask for and nobody has bound stands
// first.
import {Fault, listing, octetsOf} from "/console.js";
import {button, element, field, form, living, say, table, text} from "/elements.js";
import {read} from "/usage.js";
import {needs} from "/words.js";

const FIRST = 200;
const WORDS = {
  controller: "class",
  "my-controller": "own controller of",
  name: "name",
  "local-networks": "local networks"
};

/**
 * What approved files ask for that isn't there, each with the URLs whose files do, and how many files
 * weren't at hand.
 */
async function missing(tables) {
  const there = new Set([
    ...tables.classes.map(
      (row) => "class" in row ? `controller ${row.class}` : `my-controller ${row["my-controller-of"]}`),
    ...tables.names.map((row) => `name ${row.name}`), ...(tables.locals.length ? ["local-networks "] : [])
  ]);
  const found = new Map();
  let unread = 0;
  for (const {url, approved} of tables.files.filter((row) => row.approved)) {
    try {
      for (const need of needs(read(await octetsOf(approved.sha256)))) {
        const key = `${need.kind} ${need.value}`;
        if (!there.has(key)) found.set(key, {...need, urls: [...(found.get(key)?.urls ?? []), url]});
      }
    } catch {
      unread += 1;
    }
  }
  return {found: [...found.values()], unread};
}

function missingPart({found, unread}, fills) {
  const bind = ({kind, value}) =>
    kind === "controller" || kind === "my-controller" ? button("Bind", () => fills(kind, value)) : "";
  return [
    element("h3", {}, "Asked for by files in force, and not there"),
    found.length ? table(
                     ["What", "", "By the file of", ""],
                     found.map(
                       (need) =>
                         [WORDS[need.kind], text(need.value),
                          need.urls.map((url) => element("div", {}, text(url))), bind(need)]),
                     "What is missing") :
                   element("p", {}, "Nothing."),
    unread ? element(
               "p", {class: "quiet"},
               `The octets of ${unread} approved ${
                 unread === 1 ? "file aren't" : "files aren't"} at hand, so what they ask for isn't known.`) :
             null
  ];
}

function classRows(classes, does) {
  return classes.flatMap((row) => row.addresses.map((address) => {
    const key = "class" in row ? {class: row.class} : {"my-controller-of": row["my-controller-of"]};
    return [
      "class" in row ? "class" : "own controller of", text(Object.values(key)[0]),
      element("code", {}, address),
      button(
        "Unbind", () => does.change("DELETE", "/classes", {...key, address}, () => `${address} is unbound.`))
    ];
  }));
}

function nameRows(names, filter) {
  const now = Date.now() / 1000;
  return names.filter(({name}) => name.includes(filter))
    .map(
      (row) =>
        [text(row.name),
         row.addresses.map((one) => element("div", {}, `${one.address}, ${living(one.until, now)}`))]);
}

function forms(does) {
  const bind = form(
    [
      field("Class, or URL of own controllers", "key", {required: true, id: "key"}),
      field("Address", "address", {required: true, id: "address"})
    ],
    "Bind",
    ({key, address}) => does.change(
      "POST", "/classes", {[key.startsWith("https://") ? "my-controller-of" : "class"]: key, address},
      ({result}) => `${address}: ${result}.`));
  const name = form(
    [
      field("Name", "name", {required: true}), field("Address", "address", {required: true}),
      field("Seconds", "ttl", {type: "number", min: 1, max: 2147483647, value: 86400, required: true})
    ],
    "Tell",
    ({ttl, ...rest}) =>
      does.change("POST", "/names", {...rest, ttl: Number(ttl)}, ({result}) => `${rest.name}: ${result}.`));
  return {bind, name};
}

/**
 * The form of the local networks, which are set together. What another operator set since they were shown
 * isn't undone unseen.
 */
function localsForm(tables, does) {
  const networks = field("Networks, one a line", "prefixes", {rows: 3});
  const area = networks.querySelector("textarea");
  const others = element("p", {role: "status"});
  let shown = "";
  const refresh = () => {
    const listed = tables.locals.join("\n");
    if (area.value === shown || area.value === listed) {
      area.value = shown = listed;
      others.replaceChildren();
    }
  };
  const set = async ({prefixes}) => {
    const listed = (await listing("locals")).join("\n");
    if (listed !== shown) {
      shown = listed;
      others.replaceChildren(
        "Nothing was set: somebody has set other ones meanwhile, ",
        text(listed.replaceAll("\n", ", ") || "none"),
        ". Set them once more, if yours are to stand in their place.");
      return false;
    }
    others.replaceChildren();
    const isDone = await does.change(
      "PUT", "/locals", {prefixes: prefixes.split(/\s+/).filter(Boolean)},
      ({result}) => `Local networks: ${result}.`);
    if (isDone) area.value = shown = tables.locals.join("\n");
    return false;
  };
  const saved = async (values) => {
    try {
      return await set(values);
    } catch (fault) {
      if (!(fault instanceof Fault)) throw fault;
      say(fault.message);
      return false;
    }
  };
  return {locals: element("div", {}, form([networks], "Set", saved), others), refresh};
}

export function namesView(view, tables, does) {
  const {bind, name: tell} = forms(does);
  const [first, classes, names] = [element("div"), element("div"), element("div")];
  const {locals, refresh} = localsForm(tables, does);
  let all = false;
  let turn = 0;
  const filter = element("input", {
    class: "form-control",
    placeholder: "Part of a name",
    "aria-label": "Part of a name",
    input: () => showNames()
  });
  const showNames = () => {
    const rows = nameRows(tables.names ?? [], filter.value);
    const more = rows.length > FIRST && !all ? button(`Show all ${rows.length}`, () => {
      all = true;
      showNames();
    }) : "";
    names.replaceChildren(table(["Name", "Addresses"], all ? rows : rows.slice(0, FIRST), "Names"), more);
  };
  const fills = (kind, value) => {
    bind.querySelector("#key").value = value;
    bind.querySelector("#address").focus();
  };
  view.append(
    first, element("h3", {}, "Classes"), bind, classes, element("h3", {}, "Local networks"), locals,
    element("h3", {}, "Names"), tell, filter, names);
  return async (name) => {
    if (name === "things" || name === "due" || [
          "files", "classes", "locals", "names"
        ].some((one) => !tables[one]))
      return;
    if (name !== "files") {
      classes.replaceChildren(
        table(["Kind", "Class or URL", "Address", ""], classRows(tables.classes, does), "Classes"));
      showNames();
      refresh();
    }
    // files are read one by one, and meanwhile what is there may be listed anew
    const own = turn += 1;
    const found = await missing(tables);
    if (own === turn) first.replaceChildren(...missingPart(found, fills).filter(Boolean));
  };
}
