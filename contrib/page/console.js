// The manager's console, by the site's paths, and the folder of files beside it.

export const MOST = 262144;
const NEWLINE = 10;
const SITE = {
  401: "The site wants a name and a password.",
  403: "The site refuses it.",
  413: "It is too long.",
  429: "Too many requests wait. Try again in a moment.",
  502: "The manager doesn't answer.",
  504: "The manager doesn't answer.",
};
const RULES = {
  keeper: "The manager couldn't write its store. Its disk may be full.",
  memory: "The manager has no memory for it.",
  Digest: "Another file waits by now, so nothing was approved. Look at that one.",
  NoCandidate: "No file waits any more.",
  PolicyFull: "The approved files would have too many entries together.",
  CacheFull: "The manager holds files of as many URLs as it may.",
  Older: "It is older than a file that is held.",
  NoSignature: "The file names no signature, so it can't be approved as checked.",
  NoThing: "No Thing has this hardware address.",
  NoPending: "This URL doesn't wait any more.",
  member: "A field has another form than it has to have:",
};
// what each listing has to look like: '?' may be null
const LEASE = {
  address: "string",
  until: "number?"
};
const FILE = {
  fetched: "number",
  hours: "number",
  sha256: "string",
  update: "number"
};
const SHAPES = {
  things: [{mac: "string", url: "string", pending: "string?", held: "boolean", leases: [LEASE]}],
  files: [{url: "string", approved: [FILE, null], candidate: [FILE, null]}],
  classes: [{addresses: ["string"]}],
  locals: ["string"],
  names: [{name: "string", addresses: [LEASE]}],
  due: ["string"],
};
export const LISTINGS = Object.keys(SHAPES);

/** What went wrong, in words; its status is 0 where nothing was answered. */
export class Fault extends Error {
  constructor(words, status = 0, answer = {}) {
    super(words);
    this.status = status;
    this.answer = answer;
  }
}

function has(value, shape) {
  if (Array.isArray(shape) && shape[1] === null) return value === null || has(value, shape[0]);
  if (Array.isArray(shape)) return Array.isArray(value) && value.every((one) => has(one, shape[0]));
  if (typeof shape === "string")
    return (shape.endsWith("?") && value === null) || typeof value === shape.replace("?", "");
  return value !== null && typeof value === "object" &&
    Object.entries(shape).every(([name, part]) => has(value[name], part));
}

function wordsOf(status, answer) {
  const said = [answer.rule, answer.url?.rule].filter((rule) => typeof rule === "string");
  const words = said.length ? RULES[said[0]] ?? `The manager refuses it: ${said.join(" ")}.` :
                              SITE[status] ?? `It was answered ${status}.`;
  return answer.member ? `${words} ${answer.member}` : words;
}

async function asked(path, words) {
  try {
    const answer = await fetch(
      path, {cache: "no-store", credentials: "same-origin", signal: AbortSignal.timeout(70000), ...words});
    return [answer, new Uint8Array(await answer.arrayBuffer())];
  } catch {
    throw new Fault("The manager can't be reached.");
  }
}

/** What the console answers to a request; a body that is no octets goes as JSON. */
export async function ask(method, path, body) {
  const octets = body === undefined || body instanceof Uint8Array ? body : JSON.stringify(body);
  const [answer, bytes] = await asked(
    `/api${path}`, {method, body: octets, headers: method === "GET" ? {} : {"Mud-Change": "yes"}});
  let said;
  try {
    said = JSON.parse(new TextDecoder("utf-8", {fatal: true}).decode(bytes));
  } catch {
    said = null;
  }
  if (!answer.ok) throw new Fault(wordsOf(answer.status, said ?? {}), answer.status, said ?? {});
  if (said === null || typeof said !== "object")
    throw new Fault("What came is no whole answer of the manager.");
  return said;
}

/** A listing of the console, which has its form. */
export async function listing(name) {
  const rows = (await ask("GET", `/${name}`))[name];
  if (!has(rows, SHAPES[name]))
    throw new Fault(`The manager lists its ${name} in a form that this page doesn't know.`);
  return rows;
}

/** The SHA-256 of octets as hex digits. */
export async function digest(octets) {
  if (!crypto.subtle) {
    throw new Fault(
      "Without TLS this browser computes no digests. Reach the page as 127.0.0.1, localhost, or by https.");
  }
  const hash = new Uint8Array(await crypto.subtle.digest("SHA-256", octets));
  return Array.from(hash, (octet) => octet.toString(16).padStart(2, "0")).join("");
}

const held = new Map();

/**
 * The octets of a file that the console lists with this digest; their own digest is compared before anything
 * is shown.
 */
export async function octetsOf(sha256) {
  if (held.has(sha256)) return held.get(sha256);
  const [answer, octets] = await asked(`/files/${sha256}.json`);
  if (answer.status === 404)
    throw new Fault(
      "Its octets aren't in the folder of files. Drop the file here, and it is put there.", 404);
  if (!answer.ok)
    throw new Fault(SITE[answer.status] ?? `The folder of files answers ${answer.status}.`, answer.status);
  if (await digest(octets) !== sha256)
    throw new Fault("What stands in the folder of files has another digest, so it isn't shown.");
  held.set(sha256, octets);
  return octets;
}

/** What came of the check of a file's signature, or null where nobody checked it. */
export async function outcomeOf(sha256) {
  const [answer, octets] = await asked(`/files/${sha256}.outcome`);
  try {
    return answer.ok ? JSON.parse(new TextDecoder().decode(octets)) : null;
  } catch {
    return null;
  }
}

/** Posts a file, and puts its octets into the folder of files; what the console answers, and the digest. */
export async function post(octets) {
  if (octets.length > MOST) throw new Fault(`It has more than ${MOST} octets.`);
  const sha256 = await digest(octets);
  const answer = await ask("POST", "/files", octets);
  const [put] =
    await asked(`/files/${sha256}.json`, {method: "PUT", body: octets, headers: {"Mud-Change": "yes"}});
  if (put.status === 409)
    await octetsOf(sha256);
  else if (!put.ok)
    throw new Fault(
      `It was posted, but the folder of files answers ${put.status}: so it can't be looked at here.`);
  return {...answer, sha256};
}

/**
 * What stands in the log of changes from a place on, or where that is negative so many octets before its end:
 * the lines that are whole, each as an object whose body has a letter for each octet, the place at which they
 * begin, and the one behind them. Null where the log is a new one by now, which ends before that place.
 */
export async function changes(from) {
  const range = from < 0 ? `bytes=${from}` : `bytes=${from}-`;
  const [answer, octets] = await asked("/log/changes.log", {headers: {Range: range}});
  if (answer.status === 404) return {rows: [], begin: 0, end: 0};
  const [, first, size] = /^bytes (?:(\d+)-\d+|\*)\/(\d+)$/.exec(answer.headers.get("Content-Range")) ?? [];
  if (answer.status === 416) return Number(size) < from ? null : {rows: [], begin: from, end: from};
  if (!answer.ok)
    throw new Fault(SITE[answer.status] ?? `The log of changes is answered ${answer.status}.`, answer.status);
  const place = Number(first ?? 0);
  // within the log the first line is cut, but where it was asked for from its beginning on
  const begin = from < 0 && place > 0 ? octets.indexOf(NEWLINE) + 1 : 0;
  const end = octets.lastIndexOf(NEWLINE) + 1;
  let letters = "";
  for (let at = begin; at < end; at += 8192)
    letters += String.fromCharCode(...octets.subarray(at, Math.min(at + 8192, end)));
  const rows = letters.split("\n").filter(Boolean).flatMap((line) => {
    try {
      return [JSON.parse(line)];
    } catch {
      return [];
    }
  });
  return {rows, begin: place + begin, end: place + Math.max(begin, end)};
}
