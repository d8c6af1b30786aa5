// The sentences of usage files, as contrib/explain says them: both take them from sentences.json.
import {hostOf, PROTOCOLS} from "/usage.js";

const LAST = 65535;
const answer = await fetch("/sentences.json");
export const SAYS = await answer.json();

/** A form with its values in their places. */
export const fill = (form, values) => form.replace(/\{(\w+)\}/g, (_, name) => values[name]);

/**
 * A text that a maker chose freely, as 'explain' shows it: the letters of ASCII alone, and any other as its
 * number.
 */
export function escaped(text) {
  return text.replace(/[^ -~]|["\\<>]/g, (unit) => `\\u${unit.charCodeAt(0).toString(16).padStart(4, "0")}`);
}

const quoted = (text) => `"${escaped(text)}"`;
const numbered = (number, words) =>
  String(number) in words ? fill(SAYS.number, {number, word: words[String(number)]}) : String(number);

function listed(values) {
  return values.slice(0, -1).join(", ") + (values.length > 1 ? SAYS.side.next : "") +
    values.slice(-1).join("");
}

function portWords(test, says, kind) {
  if (test === null) return says.any;
  const {operator, port} = test;
  if (operator === "eq" || operator === "neq")
    return fill(says[operator], {port: numbered(port, SAYS.words[kind])});
  const [lower, upper] = {lte: [0, port], gte: [port, LAST], range: [test.lower, test.upper]}[operator];
  if (lower === upper) return fill(says.eq, {port: numbered(lower, SAYS.words[kind])});
  return fill(says.range, {lower, upper});
}

function peerWords(entry, url) {
  const says = SAYS.selector;
  const forms = entry.peer.length === 1 ? says.one : says.each;
  const each = entry.peer.map(
    ({kind, value = ""}) =>
      fill(forms[kind], {value: kind === "controller" ? quoted(value) : value, host: hostOf(url)}));
  if (each.length < 2) return each[0] ?? says.none;
  return fill(
    says.several, {each: each[0] + each.slice(1).map((more) => fill(says.next, {each: more})).join("")});
}

function packetWords(entry) {
  const {layer, family} = entry;
  const says = SAYS.layer;
  if (layer === null) {
    return fill(
      entry.protocol === null ? says.none : says.protocol,
      {number: numbered(entry.protocol, SAYS.words.protocol), family: SAYS.family[family]});
  }
  if (layer.kind !== "icmp") return fill(says[layer.kind], {family: SAYS.family[family]});
  const form = layer.type === null ? "code" : layer.code === null ? "type" : "type-and-code";
  const kind = layer.type === null && layer.code === null ?
    "" :
    fill(SAYS.icmp[form], {number: numbered(layer.type, SAYS.words.icmp[family]), code: layer.code});
  return fill(says.icmp[family], {kind});
}

function headerTests(entry) {
  const says = SAYS.test;
  const tests = [];
  if (entry.own) tests.push(fill(says.own, {value: entry.own}));
  if (
    entry.layer && entry.protocol !== null &&
    entry.protocol !== PROTOCOLS[`${entry.layer.kind} ${entry.family}`]) {
    tests.push(fill(says.protocol, {number: numbered(entry.protocol, SAYS.words.protocol)}));
  }
  for (const member of ["dscp", "ecn", "length", "ttl"]) {
    const form = typeof says[member] === "string" ? says[member] : says[member][entry.family];
    if (entry[member] !== null) tests.push(fill(form, {number: entry[member]}));
  }
  const flags = entry.layer?.flags ?? null;
  if (flags !== null) {
    tests.push(fill(
      flags.length === 0   ? says["no-flags"] :
        flags.length === 1 ? says.flag :
                             says.flags,
      {flags: listed(flags)}));
  }
  return tests;
}

function conditionWords(entry) {
  const says = SAYS.condition;
  const begun = entry.layer?.begun ?? null;
  const tests = [...(begun ? [SAYS.test[begun]] : []), ...headerTests(entry)];
  const anyone = entry.layer?.kind === "tcp" && !begun ? says.anyone : "";
  return anyone + tests.map((test, at) => fill(at ? says.next : says.first, {test})).join("");
}

/** An entry in a sentence. */
export function sentence(entry, url) {
  const {layer, side} = entry;
  const words = {
    may: SAYS.action[entry.written],
    packets: packetWords(entry),
    peer: peerWords(entry, url),
    conditions: conditionWords(entry)
  };
  if (layer?.kind !== "tcp" && layer?.kind !== "udp") return fill(SAYS.entry[side].plain, words);
  const [own, peer] = side === "from" ? ["source", "destination"] : ["destination", "source"];
  words.own_port = portWords(layer[own], SAYS.own_port, layer.kind);
  words.peer_port = portWords(layer[peer], SAYS.peer_port, layer.kind);
  return fill(SAYS.entry[side].ports, words);
}

/** The sentences of a file, each with its side and number. */
export function sentences(file) {
  return ["from", "to"].flatMap((side) => file[side].map((entry) => ({
                                                           side,
                                                           number: entry.number,
                                                           words: sentence(entry, file.url),
                                                           name: escaped(entry.name),
                                                           acl: escaped(entry.acl)
                                                         })));
}

/**
 * What comes, goes and stays from one file to the next, by its sentences, and whether the order of what
 * stays is another.
 */
export function changes(old, next) {
  const left = sentences(next);
  const comes = [...left];
  const goes = [];
  const stays = [];
  for (const entry of sentences(old)) {
    const at = comes.findIndex((one) => one.side === entry.side && one.words === entry.words);
    if (at < 0)
      goes.push(entry);
    else
      stays.push(...comes.splice(at, 1));
  }
  const moved = ["from", "to"].some((side) => {
    const numbers = stays.filter((one) => one.side === side).map((one) => one.number);
    return numbers.some((number, at) => at > 0 && number < numbers[at - 1]);
  });
  return {comes, goes, stays: stays.sort((a, b) => left.indexOf(a) - left.indexOf(b)), moved};
}

/** What the entries of a file ask for: classes, own controllers, names and local networks, each once. */
export function needs(file) {
  const found = new Map();
  for (const peer of [...file.from, ...file.to].flatMap((entry) => entry.peer)) {
    const value = peer.kind === "my-controller" ? file.url : peer.value ?? "";
    if (["controller", "my-controller", "name", "local-networks"].includes(peer.kind))
      found.set(`${peer.kind} ${value}`, {kind: peer.kind, value});
  }
  return [...found.values()];
}

const escapedStep = (step) => step.replace(/~1/g, "/").replace(/~0/g, "~");

/** The place in a text of JSON that a path names, or of what it would stand in. */
function placeOf(text, path) {
  const blanks = /[ \t\n\r]*/y;
  const token = /"(?:[^"\\]|\\.)*"|[^",:[\]{} \t\n\r]+/y;
  const skip = (at) => {
    blanks.lastIndex = at;
    return at + blanks.exec(text)[0].length;
  };
  const end = (at) => {
    token.lastIndex = at;
    return at + token.exec(text)[0].length;
  };
  const members = (at) => {
    const found = [];
    const closes = text[at] === "{" ? "}" : "]";
    let here = skip(at + 1);
    while (text[here] !== closes) {
      const begin = here;
      let name = String(found.length);
      if (closes === "}") {
        name = JSON.parse(text.slice(here, end(here)));
        here = skip(skip(end(here)) + 1);
      }
      found.push({name, begin, at: here});
      here = skip(behind(here));
      if (text[here] === ",") here = skip(here + 1);
    }
    found.end = here + 1;
    return found;
  };
  const behind = (at) => text[at] === "{" || text[at] === "[" ? members(at).end : end(at);
  let [at, begin] = [skip(0), skip(0)];
  for (const step of path.split("/").slice(1).map(escapedStep)) {
    const found = "{[".includes(text[at]) ? members(at).filter(({name}) => name === step).at(-1) : undefined;
    if (!found) return at;
    [begin, at] = [found.begin, found.at];
  }
  return begin;
}

/** A refusal of a file in words, with its line and what stands there. */
export function refusal(octets, {rule, path, url}) {
  const lines = [SAYS.refusal.rule[rule] ?? rule];
  if (url) lines.push(fill(SAYS.refusal.url[url.rule] ?? url.rule, {octet: url.at}));
  if (!path || rule === "Json" || rule === "TooLong") return {words: lines.join(" "), shown: ""};
  try {
    const text = new TextDecoder("utf-8", {fatal: true}).decode(octets);
    const at = placeOf(text, path);
    const [line, column] = [text.slice(0, at).split("\n").length, at - text.lastIndexOf("\n", at - 1)];
    const first = Math.max(at - column + 1, at - 30);
    const piece = text.slice(first, at + 50).split("\n")[0].replace(/[\t\r]/g, " ");
    return {
      words: `${lines.join(" ")} It is in line ${line}, column ${column}:`,
      shown: `${piece}\n${" ".repeat(at - first)}^`
    };
  } catch {
    return {words: `${lines.join(" ")} (${path})`, shown: ""};
  }
}
