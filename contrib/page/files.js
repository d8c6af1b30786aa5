// The view of usage files: what is in force, what waits, what each allows, and the operator's verdict.
import {Fault, MOST, octetsOf, outcomeOf, post} from "/console.js";
import {asks, button, element, moment, say, text, visible} from "/elements.js";
import {read} from "/usage.js";
import {changes, escaped, fill, refusal, SAYS, sentences} from "/words.js";

function entryLine(entry, look = "") {
  return element(
    "li", {class: look}, element("b", {}, `${entry.side} ${entry.number}: `), entry.words, " ",
    element(
      "span", {class: "quiet"}, fill(SAYS.entry.named, {name: `"${entry.name}"`, acl: `"${entry.acl}"`})));
}

/** The entries of a file in sentences. */
function entryList(file) {
  const side = (name) =>
    [element("h4", {class: "h6"}, SAYS.side[name]),
     element(
       "ol", {class: "entries"},
       sentences(file).filter((entry) => entry.side === name).map((entry) => entryLine(entry))),
     file[name].length ? null : element("p", {}, SAYS.side.none)];
  return element("div", {}, side("from"), side("to"));
}

/** What comes, goes and stays from one file to the next. */
export function changeList(old, next) {
  const change = changes(old, next);
  const part = (name, look) =>
    [element("h4", {class: "h6"}, SAYS.change[name]),
     change[name].length ?
       element("ol", {class: "entries"}, change[name].map((entry) => entryLine(entry, look))) :
       element("p", {}, SAYS.change.none)];
  return element(
    "div", {}, part("comes", "comes"), part("goes", "goes"), part("stays", ""),
    change.moved ? element("p", {}, SAYS.change.order) : null);
}

function headLines(file) {
  const says = SAYS.head;
  return element(
    "p", {}, fill(says.title, {url: file.url, last_update: escaped(file.lastUpdate), hours: file.hours}), " ",
    file.supported ? says.supported : says.unsupported, " ",
    file.signature === null ? says["no-signature"] :
                              fill(says.signature, {value: `"${escaped(file.signature)}"`}),
    " ",
    file.about === null ? "" : fill(says.about, {member: "systeminfo", value: `"${escaped(file.about)}"`}));
}

async function outcomeLine(sha256, place) {
  const outcome = await outcomeOf(sha256);
  const words =
    outcome ? SAYS.outcome[outcome.word] ?? visible(String(outcome.word)) : "nobody has checked a signature";
  const signer = outcome?.signer ? `; signed by ${visible(outcome.signer)}, whose issuer is ${
                                     visible(outcome.issuer)}, until ${visible(outcome.ends)}` :
                                   "";
  place.textContent = `Signature: ${words}${signer}.`;
}

/** A file that is held: when it was made and got, its digest, and what can be done with it. */
function panel(title, row, which, does) {
  const file = row[which];
  const [signature, shown, verdicts] = [element("p"), element("div"), element("div", {class: "deeds"})];
  const looks = button("Look", () => look(row, which, shown, verdicts), "primary");
  verdicts.append(...(which === "candidate" ? candidateDeeds(row, does) : approvedDeeds(row, does)));
  outcomeLine(file.sha256, signature);
  return element(
    "section", {class: "panel", "aria-label": `${title}: ${row.url}`}, element("h4", {class: "h6"}, title),
    element(
      "p", {}, `Made ${moment(file.update)}, got ${moment(file.fetched)}, kept for ${file.hours} hours. `,
      file.verdict ? `Verdict: ${file.verdict}. ` : "", element("code", {}, file.sha256)),
    signature, element("div", {class: "deeds"}, looks), verdicts, shown);
}

// the digests that were computed of files that wait, by their rows
const looked = new WeakMap();

function candidateDeeds(row, does) {
  const verdict = (word, said) => () =>
    does.change("POST", "/verdicts", {url: row.url, sha256: looked.get(row), verdict: word}, () => said);
  const approve = (words, word) => button(
    words, verdict(word, `The file of ${row.url} is in force.`), "success",
    {disabled: true, class: "btn btn-sm btn-success approves"});
  const reject = button("Reject", async () => {
    const {sha256} = row.candidate;
    if (!await asks(`Reject the file of ${row.url} that waits? It is taken away.`, "Reject it")) return;
    const body = {url: row.url, sha256, verdict: "failed"};
    await does.change("POST", "/verdicts", body, () => "The file is rejected.");
  }, "outline-danger");
  return [
    approve("Approve, no signature checked", "waived"), approve("Approve, signature checked", "verified"),
    reject
  ];
}

function approvedDeeds(row, does) {
  return [button("Revoke", async () => {
    if (!await asks(
          `Revoke the file of ${row.url}? Then its Things have none in force, and their packets are dropped.`,
          "Revoke it"))
      return;
    await does.change("POST", "/revokes", {url: row.url}, () => "The file is revoked.");
  }, "outline-danger")];
}

/** Shows what a file allows, once its digest is compared; a file that waits can be approved then. */
async function look(row, which, shown, verdicts) {
  const approves = verdicts.querySelectorAll(".approves");
  try {
    const {sha256} = row[which];
    const file = read(await octetsOf(sha256));
    const parts = [
      element(
        "p", {class: "quiet"}, "Computed here, and the same as the manager's: SHA-256 ",
        element("code", {}, sha256)),
      headLines(file)
    ];
    if (which === "candidate" && row.approved) {
      try {
        parts.push(changeList(read(await octetsOf(row.approved.sha256)), file));
      } catch (fault) {
        parts.push(
          element("p", {}, `What changes can't be said: the approved file. ${fault.message}`),
          entryList(file));
      }
    } else
      parts.push(entryList(file));
    shown.replaceChildren(...parts);
    if (which === "candidate") looked.set(row, sha256);
    approves.forEach((approve) => {
      approve.disabled = false;
    });
  } catch (fault) {
    shown.replaceChildren(
      element("p", {role: "alert"}, fault instanceof Fault ? fault.message : "It can't be read here."));
    approves.forEach((approve) => {
      approve.disabled = true;
    });
  }
}

/** Posts a file that was dropped, and says what became of it. */
async function take(file, said, does) {
  // a file that is too long isn't read into memory
  const octets = new Uint8Array(file.size > MOST ? 0 : await file.arrayBuffer());
  try {
    if (file.size > MOST) throw new Fault(`It has more than ${MOST} octets.`);
    const answer = await post(octets);
    say(
      answer.result === "new" ? `The file of ${answer.url} waits for your verdict.` :
                                `The file of ${answer.url} is held already.`);
    said.replaceChildren();
  } catch (fault) {
    if (!(fault instanceof Fault)) throw fault;
    const {words, shown} =
      fault.status === 422 ? refusal(octets, fault.answer) : {words: fault.message, shown: ""};
    said.replaceChildren(element(
      "div", {role: "alert", class: "panel"}, element("p", {}, text(file.name), `: ${words}`),
      shown ? element("pre", {}, visible(shown.split("\n")[0]), `\n${shown.split("\n")[1]}`) : null));
  }
  await does.look(["files", "due"]);
}

function dropPlace(said, does) {
  const takes = async (files) => {
    for (const file of files) await take(file, said, does);
  };
  const chosen = element("input", {
    type: "file",
    multiple: true,
    class: "form-control",
    id: "file",
    "aria-label": "Usage files",
    change: async (event) => {
      await takes([...event.target.files]);
      event.target.value = "";
    }
  });
  const over = (is) => (event) => {
    event.preventDefault();
    event.currentTarget.classList.toggle("over", is);
  };
  return element(
    "div", {
      class: "drop",
      dragover: over(true),
      dragleave: over(false),
      drop: (event) => {
        over(false)(event);
        takes([...event.dataTransfer.files]);
      }
    },
    element("label", { for: "file"
    }, "Drop a usage file here, or choose one. It waits for your verdict then."), chosen);
}

export function filesView(view, tables, does) {
  const [said, place] = [element("div"), element("div")];
  view.append(dropPlace(said, does), said, place);
  // what was looked at stays open while the same file is listed
  let panels = new Map();
  return (name) => {
    if (!tables.files || (name && name !== "files" && name !== "due")) return;
    const due = new Set(tables.due ?? []);
    // what waits for the operator stands first
    const rows = [...tables.files].sort((a, b) => (b.candidate ? 1 : 0) - (a.candidate ? 1 : 0));
    const kept = new Map();
    const keptPanel = (title, row, which) => {
      const beside = which === "candidate" ? row.approved?.sha256 : null;
      const key = JSON.stringify([which, row.url, row[which], beside]);
      kept.set(key, panels.get(key) ?? panel(title, row, which, does));
      return kept.get(key);
    };
    place.replaceChildren(...rows.map(
      (row) => element(
        "article", {}, element("h3", {}, text(row.url), due.has(row.url) ? " (due)" : ""),
        element(
          "div", {class: "beside"}, row.candidate ? keptPanel("Waits", row, "candidate") : null,
          row.approved ? keptPanel("In force", row, "approved") : null))));
    panels = kept;
    if (!rows.length) place.append(element("p", {}, "No file is held."));
  };
}
