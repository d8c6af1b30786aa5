// What a usage file means that the manager has taken: its entries, in the order in which they are asked.

const MODULE = "ietf-access-control-list:";
const FLAGS = ["cwr", "ece", "urg", "ack", "psh", "rst", "syn", "fin"];
const NUMBERS = ["protocol", "dscp", "ecn", "length", "ttl"];
const SELECTORS =
  ["manufacturer", "same-manufacturer", "model", "local-networks", "controller", "my-controller"];
export const PROTOCOLS = {
  "tcp 4": 6,
  "tcp 6": 6,
  "udp 4": 17,
  "udp 6": 17,
  "icmp 4": 1,
  "icmp 6": 58
};

/** The text by which MUD URLs are compared. */
export function canonicalUrl(url) {
  const [, host, port, path] = /^https:\/\/([^:/?]*)(:[0-9]*)?(.*)$/is.exec(url);
  const kept = ["", ":", ":443"].includes(port ?? "") ? "" : port;
  return `https://${host.toLowerCase()}${kept}${path.startsWith("/") ? "" : "/"}${path}`;
}

export const hostOf = (url) => url.slice(8).split(/[:/?]/)[0];
const hostName = (name) => name.replace(/\.$/, "").toLowerCase();
const without = (text) => text.startsWith(MODULE) ? text.slice(MODULE.length) : text;

/** The groups of an IPv6 address as numbers. */
function groupsOf(address) {
  const dotted = address.replace(
    /(\d+)\.(\d+)\.(\d+)\.(\d+)$/,
    (_, a, b, c, d) => `${(a * 256 + +b).toString(16)}:${(c * 256 + +d).toString(16)}`);
  const [left, right] =
    dotted.split("::").map((half) => half ? half.split(":").map((group) => parseInt(group, 16)) : []);
  return right ? [...left, ...Array(8 - left.length - right.length).fill(0), ...right] : left;
}

/** Groups of an IPv6 address as RFC 5952 writes them. */
function textOf(groups) {
  let best = {at: -1, length: 1};
  for (let at = 0; at < 8; at += 1) {
    let length = 0;
    while (groups[at + length] === 0) length += 1;
    if (length > best.length) best = {at, length};
  }
  const hex = (part) => part.map((group) => group.toString(16)).join(":");
  return best.at < 0 ? hex(groups) :
                       `${hex(groups.slice(0, best.at))}::${hex(groups.slice(best.at + best.length))}`;
}

/** A network with the bits behind its length taken away. */
export function networkOf(text) {
  const [address, length] = text.split("/");
  const size = address.includes(":") ? 16 : 8;
  const units = size === 16 ? groupsOf(address) : address.split(".").map(Number);
  const bits = length === undefined ? units.length * size : Number(length);
  const masked = units.map((unit, at) => {
    const kept = Math.min(size, Math.max(0, bits - at * size));
    return unit & ~((1 << (size - kept)) - 1);
  });
  return `${size === 16 ? textOf(masked) : masked.join(".")}/${bits}`;
}

function portOf(test) {
  if (test === undefined) return null;
  if ("lower-port" in test) return {operator: "range", lower: test["lower-port"], upper: test["upper-port"]};
  return {operator: test.operator ?? "eq", port: test.port};
}

function layerOf(matches) {
  const kind = ["tcp", "udp", "icmp"].find((name) => name in matches);
  if (!kind) return null;
  const tests = matches[kind];
  if (kind === "icmp") return {kind, type: tests.type ?? null, code: tests.code ?? null};
  const layer = {
    kind,
    source: portOf(tests["source-port"]),
    destination: portOf(tests["destination-port"]),
    begun: null,
    flags: null
  };
  if (kind === "tcp") {
    layer.begun = tests["ietf-mud:direction-initiated"] ?? null;
    layer.flags =
      tests.flags === undefined ? null : FLAGS.filter((flag) => tests.flags.split(/\s+/).includes(flag));
  }
  return layer;
}

function peersOf(mud, ip, side, family) {
  const values = {manufacturer: hostName, model: canonicalUrl, controller: String};
  const peers = SELECTORS.filter((kind) => kind in mud)
                  .map((kind) => kind in values ? {kind, value: values[kind](mud[kind])} : {kind});
  const [end, name] = side === "from" ? ["destination", "dst"] : ["source", "src"];
  const network = ip[`${end}-ipv${family}-network`];
  const host = ip[`ietf-acldns:${name}-dnsname`];
  if (network !== undefined) peers.push({kind: "network", value: networkOf(network)});
  if (host !== undefined) peers.push({kind: "name", value: hostName(host)});
  return peers;
}

function entryOf(ace, acl, side, number) {
  const family = without(acl.type) === "ipv4-acl-type" ? 4 : 6;
  const matches = ace.matches ?? {};
  const ip = matches[`ipv${family}`] ?? {};
  const own = ip[`${side === "from" ? "source" : "destination"}-ipv${family}-network`];
  const numbers = Object.fromEntries(NUMBERS.map((member) => [member, ip[member] ?? null]));
  return {
    side,
    number,
    acl: acl.name,
    name: ace.name,
    family,
    peer: peersOf(matches["ietf-mud:mud"] ?? {}, ip, side, family),
    own: own === undefined ? null : networkOf(own),
    ...numbers,
    layer: layerOf(matches),
    written: without(ace.actions.forwarding)
  };
}

function entriesOf(root, side) {
  // of two lists with one name the file would have been refused
  const acls = root["ietf-access-control-list:acls"]?.acl ?? [];
  const named = root["ietf-mud:mud"][`${side}-device-policy`]?.["access-lists"]?.["access-list"] ?? [];
  const entries = named.map(({name}) => acls.find((acl) => acl.name === name))
                    .flatMap((acl) => (acl.aces?.ace ?? []).map((ace) => [ace, acl]));
  return entries.map(([ace, acl], at) => entryOf(ace, acl, side, at + 1));
}

/** A file as it is meant: its URL, what it says of itself, and the entries of each side. */
export function read(octets) {
  const root = JSON.parse(new TextDecoder("utf-8", {fatal: true}).decode(octets));
  const mud = root["ietf-mud:mud"];
  return {
    url: canonicalUrl(mud["mud-url"]),
    lastUpdate: mud["last-update"],
    hours: mud["cache-validity"] ?? 48,
    supported: mud["is-supported"],
    signature: mud["mud-signature"] ?? null,
    about: mud.systeminfo ?? null,
    from: entriesOf(root, "from"),
    to: entriesOf(root, "to")
  };
}
