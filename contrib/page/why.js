// The view of 'why': a frame in hex, what the manager says of it, and the entry that decides.
import {ask, Fault, octetsOf} from "/console.js";
import {element, field, form, text, visible} from "/elements.js";
import {read} from "/usage.js";
import {sentence} from "/words.js";

const [IPV4, IPV6, VLANS, TAGS] = [0x0800, 0x86dd, [0x8100, 0x88a8], 2];
const [TCP, FRAGMENT, EXTENSIONS, HEADERS] = [6, 44, [0, 43, 44, 60], 8];
const SYN = 2;
const ACK = 16;
const WORDS = {
  "drop:held": "The operator holds this Thing, so its packets are dropped.",
  "drop:no-file": "No file of its URL is in force, so its packets are dropped.",
  "drop:no-match": "No entry of its file matches, so it is dropped.",
  "default-dns": "Each Thing may ask the DNS servers that are bound.",
  "default-ntp": "Each Thing may ask the time servers that are bound.",
};

/** The octets of a text of hex digits, with whatever white space or colons between them. */
function octetsFrom(digits) {
  const bare = digits.replace(/[\s:]/g, "");
  if (!/^([0-9a-fA-F]{2})+$/.test(bare))
    throw new Fault("The frame has to be hex digits, two for each octet.");
  return Uint8Array.from(bare.match(/../g), (pair) => parseInt(pair, 16));
}

/** The flags of a frame's TCP header, or null where it has none. */
export function tcpFlags(frame) {
  const word = (place) => frame[place] * 256 + frame[place + 1];
  let at = 12;
  for (let tags = 0; tags < TAGS && VLANS.includes(word(at)); tags += 1) at += 4;
  const type = word(at);
  at += 2;
  if (type === IPV4) {
    const isFirst = (word(at + 6) & 0x1fff) === 0;
    return frame[at + 9] === TCP && isFirst ? frame[at + (frame[at] & 15) * 4 + 13] ?? null : null;
  }
  if (type !== IPV6) return null;
  let next = frame[at + 6];
  at += 40;
  for (let headers = 0; headers < HEADERS && EXTENSIONS.includes(next); headers += 1) {
    if (next === FRAGMENT && word(at + 2) >> 3 !== 0) return null;
    const length = next === FRAGMENT ? 8 : 8 * (frame[at + 1] + 1);
    [next, at] = [frame[at], at + length];
  }
  return next === TCP ? frame[at + 13] ?? null : null;
}

/** The entry of an approved file that decided, or null where its octets aren't at hand. */
async function entryOf(endpoint, side, files) {
  const row = files.find(({url}) => url === endpoint.url);
  if (endpoint.entry === null || !row?.approved) return null;
  const file = read(await octetsOf(row.approved.sha256));
  const entry = file[side].find(({number}) => number === endpoint.entry);
  // what was listed may be older than what the manager judged by
  if (entry?.name !== endpoint.ace || entry.acl !== endpoint.acl) {
    throw new Fault("The file in force is another one by now.");
  }
  return {words: sentence(entry, file.url), file};
}

/** Whether some entry of the endpoint's file asks who began a connection. */
async function asksWhoBegan(endpoint, side, files) {
  const row = files.find(({url}) => url === endpoint.url);
  if (!row?.approved) return false;
  const file = read(await octetsOf(row.approved.sha256));
  return file[side].some((entry) => entry.layer?.begun);
}

async function endpointPart(title, endpoint, side, files) {
  if (endpoint === null) return element("p", {}, `${title} no Thing, so nobody's file is asked.`);
  const lines = [element(
    "p", {}, `${title} the Thing `, element("code", {}, endpoint.mac), " of ", text(endpoint.url), ": ",
    element("b", {}, visible(endpoint.ruling)), ".")];
  if (endpoint.ruling in WORDS) lines.push(element("p", {}, WORDS[endpoint.ruling]));
  try {
    const entry = await entryOf(endpoint, side, files);
    if (entry) lines.push(element("p", {}, `Entry ${side} ${endpoint.entry}: ${entry.words}`));
  } catch {
    lines.push(element(
      "p", {}, `Entry ${side} ${endpoint.entry}, `, text(endpoint.ace), " in the list ", text(endpoint.acl),
      ". The file's octets aren't at hand."));
  }
  return element("div", {}, lines);
}

/**
 * Whether the frame has to be seen in its connection: TCP, no first SYN, and an entry that asks who began.
 */
async function isWithin(frame, answer, files) {
  const flags = tcpFlags(frame);
  if (flags === null || (flags & SYN && !(flags & ACK))) return false;
  const asked = await Promise.all(["from", "to"].map(
    (side) => answer[side] ? asksWhoBegan(answer[side], side, files).catch(() => true) : false));
  return asked.some(Boolean);
}

export function whyView(view, tables) {
  const said = element("div", {"aria-live": "polite"});
  const why = form(
    [field("Frame in hex, from its first hardware address on", "frame", {rows: 6, required: true})],
    "Ask why", async ({frame}) => {
      try {
        const octets = octetsFrom(frame);
        const answer = await ask("POST", "/why", octets);
        const files = tables.files ?? [];
        const within = await isWithin(octets, answer, files);
        said.replaceChildren(
          ...
            [within ?
               element(
                 "p", {class: "panel"},
                 "Of this frame alone; in its connection it may pass: an entry asks who began it.") :
               null,
             element("p", {}, "Verdict: ", element("b", {}, visible(answer.verdict)), "."),
             await endpointPart("It is sent by", answer.from, "from", files),
             await endpointPart("It is sent to", answer.to, "to", files)]
              .filter(Boolean));
      } catch (fault) {
        if (!(fault instanceof Fault)) throw fault;
        said.replaceChildren(element("p", {role: "alert"}, fault.message));
      }
      return false;
    });
  view.append(
    element("p", {class: "quiet"}, "Nothing is changed by it, and the frame counts for no connection."), why,
    said);
  return () => {};
}
