"use strict";
// What a reader does with the pages of the example records: each state is the one that tlcheck writes, which the page's
// data has.
const { DATA, STATE, STEP, TABLES, textOf } = require("./trials.js");

const RECORDS = ["answers-before-the-release-ack", "grants-beside-a-probe", "grants-old-bytes", "out-of-order",
  "reads-old-bytes", "two-writers"].map((name) => "record-" + name);
const grouped = (bytes) => (bytes.match(/.{1,16}/g) || []).join(" ");

// The rows that the tables have of a block's lines (docs/RECORD.md, State), but for those at rest.
function rowsOf(block, lines) {
  const rows = [];
  let memory = "";
  let home = "";
  for (const line of lines.split("\n")) {
    const colon = line.indexOf(": ");
    const [is, parts] = [line.slice(0, colon), line.slice(colon + 2).split(", ")];
    if (is === "memory") [memory] = parts;
    if (is === "home") home = parts;
    if (!is.startsWith("client ")) continue;
    const words = parts[0].split(" ");
    const dirty = words[0] === "None" ? "" : words[1] === "dirty" ? "dirty" : "clean";
    const waits = (parts.find((one) => one.startsWith("waits for ")) || "waits for nothing").slice(10);
    const recorded = parts.find((one) => one.startsWith("recorded ")).slice(9);
    rows.push([is, `b${block}`, words[0], dirty, dirty && grouped(words[words.length - 1]), waits, recorded].join("|"));
    for (const one of parts.filter((part) => part.startsWith("on "))) {
      const message = one.slice(5).split(" ");
      const bytes = /Data$/.test(message[0]) ? message.pop() : "";
      const way = "ACE".includes(one[3]) ? `${is} to home` : `home to ${is}`;
      rows.push([one[3], way, `${message.join(" ")} b${block}`, grouped(bytes)].join("|"));
    }
  }
  const [copy, bytes] = home[0].split(" ");
  const serves = (home.find((one) => one.startsWith("serves ")) || "serves nobody").slice(7);
  const crossing = home.find((one) => / the memory /.test(one)) || " the memory nothing";
  const passes = crossing.split(" the memory ")[1].split(" ");
  const words = { nothing: "nothing", Get: "a Get" }[passes[0]] || passes[0];
  const row = [`b${block}`, copy === "no" ? "none" : copy, copy === "no" ? "" : grouped(bytes), serves,
    [words, grouped(passes[1] || "")].join(" ").trim(), grouped(memory)];
  if (row.slice(1, 5).join("|") !== "none||nobody|nothing") rows.push(row.join("|"));
  return rows;
}
// What the tables show, but for what was taken in the entry, and for rows of a block that is at rest.
const AT_REST = /^(client \d+\|b\d+\|None\|\|\|nothing\|None|b\d+\|none\|\|nobody\|nothing\|[\w ]*)$/;
const shownIn = (tables) => tables.filter((row) => ["client", "home", "message"].some((is) => row[is] !== undefined))
  .map((row) => row.cells.join("|")).filter((words) => !AT_REST.test(words));
const goes = (line) => `location.hash = "#line=${line}"; dispatchEvent(new HashChangeEvent("hashchange"))`;

// Each entry by its line: the state beside it is tlcheck's; and back as forward.
async function states(browser, tally, url, name) {
  browser.faults.length = 0;
  await browser.go(url(name));
  const data = JSON.parse(await browser.ask(DATA));
  const now = data.start.slice();
  const seen = [];
  for (const [index, row] of data.rows.entries()) {
    for (let i = 0; i < data.changes[index].length; i += 2) now[data.changes[index][i]] = data.changes[index][i + 1];
    await browser.ask(goes(row[4]));
    tally.check(`${name}#line=${row[4]}`, await browser.ask(STEP) === String(row[4])
      && await browser.ask("location.hash") === `#line=${row[4]}`);
    const wanted = now.flatMap((lines, place) => rowsOf(data.blocks[place], lines))
      .filter((words) => !AT_REST.test(words)).sort().join("; ");
    const shown = shownIn(await browser.ask(TABLES)).sort().join("; ");
    tally.check(`${name}#line=${row[4]}: the state`, shown === wanted, `${shown}, not ${wanted}`);
    seen.push(await browser.ask(STATE));
  }
  let same = true;
  for (let index = data.rows.length - 1; index >= 0; index -= 1) {
    same = same && await browser.ask(STATE) === seen[index];
    await browser.key("ArrowLeft");
  }
  tally.check(`${name}: back as forward`, same);
  await browser.go(url(name, `#line=${data.rows[2][4]}`));
  tally.check(`${name}: a link to a line`, await browser.ask(STATE) === seen[2]);
  tally.check(`${name}: no error`, browser.faults.length === 0, browser.faults.join("\n"));
}

// What the verdicts of the records say beside their last entry: the rule, why it is broken here, where it stands.
const BROKEN = [
  ["record-grants-beside-a-probe", "no Probe of the block is unanswered",
    "Here client 0's ProbeAck NtoN is on channel C.", "See docs/PROTOCOL.md, Rules."],
];
async function verdicts(browser, tally, url) {
  for (const name of RECORDS) {
    await browser.go(url(name));
    const data = JSON.parse(await browser.ask(DATA));
    await browser.key("End");
    tally.check(`${name}: the verdict`, await browser.ask(textOf("verdict")) === data.verdict);
    const isBroken = /^not lawful/.test(data.verdict);
    const [why, places] = [await browser.ask(textOf("why")), await browser.ask(textOf("places"))];
    tally.check(`${name}: what is broken`, isBroken ? /^Here \S.*\S\.$/.test(why) && !/undefined|NaN/.test(why)
      : why === "nothing", why);
    const told = BROKEN.find((one) => one[0] === name);
    if (told) {
      const rule = await browser.ask(textOf("rule"));
      const isSo = rule.includes(told[1]) && why === told[2] && places === told[3];
      tally.check(`${name}: why`, isSo, [rule, why, places].join(" | "));
    }
  }
}

const records = async (browser, tally, url) => { for (const name of RECORDS) await states(browser, tally, url, name); };

module.exports = { RECORDS, records, shownIn, verdicts };
