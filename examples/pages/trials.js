"use strict";
// What a reader does with the pages of the example traces. A trial takes the browser, a tally, and the address of a page.
const fs = require("fs");
const path = require("path");

const top = path.resolve(__dirname, "../..");
const PAGES = ["release-crosses-probe", "both-upgrade", "eviction-writes-back", "every-mark"];

const STEP = "document.getElementById('step').value";
const STATE = "document.getElementById('state').innerHTML";
const DATA = "document.getElementById('data').textContent";
const TOLD = "document.querySelector('[aria-live]').textContent";
const press = (id) => `document.getElementById('${id}').click()`;
const choose = (id, value) => `{ const one = document.getElementById('${id}'); one.value = '${value}';
  one.dispatchEvent(new Event('change')); }`;
const textOf = (id) => `(document.getElementById('${id}') || { textContent: 'nothing' }).textContent`;
// The rows of the state's tables: which row, whether it is marked, and its cells' words, each with whether it is marked.
const TABLES = `[...document.querySelectorAll("#tables tbody tr")].map((row) => ({ ...row.dataset,
  isMarked: row.classList.contains("changed"), says: row.textContent,
  cells: [...row.cells].map((cell) => cell.childNodes.length ? cell.firstChild.textContent : ""),
  marks: [...row.cells].map((cell) => cell.classList.contains("changed")) }))`;

// Forward through all steps and back: the same state at the same step.
async function walks(browser, tally, url, name) {
  browser.faults.length = 0;
  await browser.go(url(name));
  const last = Number(await browser.ask("document.getElementById('step').max"));
  const states = [await browser.ask(STATE)];
  for (let step = 0; step <= last; step += 1) {
    await browser.key("ArrowRight");
    states.push(await browser.ask(STATE));
  }
  tally.check(`${name}: the last step`, await browser.ask(STEP) === String(last));
  tally.check(`${name}: each step shows its own words`, new Set(states).size === states.length);
  let same = true;
  for (let step = last; step >= -1; step -= 1) {
    same = same && await browser.ask(STATE) === states[step + 1];
    await browser.key("ArrowLeft");
  }
  tally.check(`${name}: back as forward`, same);
  await browser.key("End");
  tally.check(`${name}: End`, await browser.ask(STATE) === states[last + 1]);
  await browser.key("Home");
  tally.check(`${name}: Home`, await browser.ask(STATE) === states[0]);
  for (const step of [0, last, Math.floor(last / 2)]) {
    await browser.go(url(name, "#step=" + step));
    tally.check(`${name}#step=${step}`, await browser.ask(STATE) === states[step + 1]);
  }
  tally.check(`${name}: no error`, browser.faults.length === 0, browser.faults.join("\n"));
}

// What the worked races show after some steps: the row of a table by its mark, and the words of its cells.
const SHOWN = [
  ["release-crosses-probe", 0, { client: "0" }, "client 0|b0|None|||a Grant|None"],
  ["release-crosses-probe", 0, { message: "0.0.A.0" }, "A|client 0 to bank 0|0.0.A.0|AcquireBlock NtoT b0|"],
  ["release-crosses-probe", 2, { home: "0" }, "0|b0|none||a Get|0000000000000000"],
  ["release-crosses-probe", 8, { client: "0" }, "client 0|b0|Tip|dirty|aa00000000000000|nothing|Tip"],
  ["release-crosses-probe", 8, { home: "0" }, "0|b0|clean|0000000000000000|nothing|0000000000000000"],
  ["release-crosses-probe", 8, { set: "0.0" }, "0|0|way 0: b0, way 1: free"],
  ["release-crosses-probe", 13, { client: "0" }, "client 0|b0|None|||a ReleaseAck|Tip"],
  ["release-crosses-probe", 13, { client: "1" }, "client 1|b0|None|||a Grant|None"],
  ["release-crosses-probe", 13, { message: "0.0.C.0" },
    "C|client 0 to bank 0|0.0.C.0|ReleaseData TtoN b0|aa00000000000000"],
  ["release-crosses-probe", 13, { message: "0.0.B.0" }, "B|bank 0 to client 0|0.0.B.0|ProbeBlock toN b0|"],
  ["release-crosses-probe", 13, { register: "0" }, "0|b0|client 1 NtoT|none|0 of set 0|client 0 of b0, unanswered|"
    + "waits: a Probe of its block is unanswered (case 7)"],
  ["release-crosses-probe", 14, { home: "0" }, "0|b0|dirty|aa00000000000000|nothing|0000000000000000"],
  ["release-crosses-probe", 14, { taken: "0.0.C.0" },
    "C|client 0 to bank 0|0.0.C.0|ReleaseData TtoN b0|aa00000000000000"],
  ["release-crosses-probe", 18, { register: "0" }, "0|b0|client 1 NtoT|none|0 of set 0|client 0 of b0, answered|"
    + "sends client 1 the Grant (case 8)"],
  ["release-crosses-probe", 21, { client: "1" }, "client 1|b0|Tip|clean|aa00000000000000|nothing|Tip"],
  ["release-crosses-probe", 21, { closed: "0" }, "0|b0|closed in this step"],
  ["both-upgrade", 21, { register: "0" }, "0|b0|client 0 BtoT|none|0 of set 0|nobody|"
    + "sends client 1 a Probe toN of block 0 (case 6)"],
  ["eviction-writes-back", 2, { register: "0" }, "0|b0|client 0 NtoT|none|0 of set 0|nobody|"
    + "waits: the data of its Get has not come (case 5)"],
  ["eviction-writes-back", 10, { register: "1" }, "0|b1|client 1 NtoT|b0|0 of set 0|nobody|"
    + "sends client 0 a Probe toN of block 0 (case 1)"],
  ["eviction-writes-back", 12, { register: "1" }, "0|b1|client 1 NtoT|b0|0 of set 0|client 0 of b0, unanswered|"
    + "waits: a Probe of the victim, block 0, is unanswered (case 2)"],
  ["eviction-writes-back", 13, { register: "1" }, "0|b1|client 1 NtoT|b0|0 of set 0|client 0 of b0, answered|"
    + "writes block 0 back by PutFullData (case 3)"],
  ["eviction-writes-back", 14, { home: "0" }, "0|b0|none||PutFullData aa00000000000000|0000000000000000"],
  ["eviction-writes-back", 14, { register: "1" }, "0|b1|client 1 NtoT|b0|0 of set 0|client 0 of b0, answered|"
    + "waits: the memory has not acknowledged the victim, block 0 (case 4)"],
  ["eviction-writes-back", 17, { register: "1" }, "0|b1|client 1 NtoT|none|0 of set 0|client 0 of b0, answered|"
    + "sends the memory a Get (case 5)"],
  ["eviction-writes-back", 21, { register: "1" }, "0|b1|client 1 NtoT|none|0 of set 0|client 0 of b0, answered|"
    + "waits: the GrantAck has not been taken (case 8)"],
  ["every-mark", 15, { register: "0" }, "0|b0|eviction|b0|0 of set 0|nobody|drops its clean copy of block 0 (case 3)"],
  ["every-mark", 9, { client: "0" }, "client 0|b0|Tip|clean|0001020304050607 08090a0b0c0d0e0f|nothing|Tip"],
];
async function shows(browser, tally, url) {
  let opened;
  for (const [name, step, mark, words] of SHOWN) {
    if (name !== opened) await browser.go(url(name));
    opened = name;
    await browser.ask(`location.hash = "#step=${step}"; dispatchEvent(new HashChangeEvent("hashchange"))`);
    const rows = await browser.ask(TABLES);
    const [key, value] = Object.entries(mark)[0];
    const row = rows.find((one) => one[key] === value);
    const found = row ? row.cells.join("|") : "no such row";
    tally.check(`${name}#step=${step} ${key} ${value}`, found === words, found);
  }
}

// What is marked at a step is what differs from the step before, and says so in words.
const UNSEEN = { client: ["None", "", "", "nothing", "None"], home: ["none", "", "nothing"] };
function wrongMarks(old, now) {
  const wrong = [];
  for (const row of now) {
    const kind = ["client", "home", "set", "message", "register", "taken", "closed"].find((one) => row[one] !== undefined);
    if (kind === undefined) continue;
    const was = old.find((one) => one[kind] === row[kind] && one.block === row.block);
    const before = was ? was.cells.slice(2) : UNSEEN[kind];
    const isWhole = ["taken", "closed"].includes(kind) || (["message", "register"].includes(kind) && !was);
    if (isWhole !== row.isMarked || (isWhole && !/in this step/.test(row.says))) wrong.push(`${kind} ${row[kind]}`);
    if (isWhole || !before) continue;
    before.forEach((words, column) => {
      const differs = row.cells[column + 2] !== words;
      if (row.marks[column + 2] !== differs) wrong.push(`${kind} ${row[kind]}: column ${column + 2}`);
    });
    if (row.marks.some((one) => one) && !/\(changed\)/.test(row.says)) wrong.push(`${kind} ${row[kind]}: no words`);
  }
  for (const [here, gone] of [["message", "taken"], ["register", "closed"]]) {
    for (const row of old.filter((one) => one[here] !== undefined)) {
      const isThere = now.some((one) => one[here] === row[here] || one[gone] === row[here]);
      if (!isThere) wrong.push(`${here} ${row[here]} left untold`);
    }
  }
  return wrong;
}
// The first of what changed is in view.
const IN_VIEW = `(() => { const box = document.getElementById("tables").getBoundingClientRect();
  const one = document.querySelector("#tables .changed");
  if (!one) return true;
  const at = one.getBoundingClientRect();
  return at.top >= box.top - 1 && at.bottom <= Math.max(box.bottom, at.height + box.top) + 1; })()`;
async function marks(browser, tally, url, name) {
  await browser.size(1366, 360);
  await browser.go(url(name));
  const steps = Number(await browser.ask("document.getElementById('step').max"));
  let old = await browser.ask(TABLES);
  const wrong = [];
  const hidden = [];
  for (let step = 0; step <= steps; step += 1) {
    await browser.key("ArrowRight");
    const now = await browser.ask(TABLES);
    wrong.push(...wrongMarks(old, now).map((one) => `step ${step}: ${one}`));
    if (!await browser.ask(IN_VIEW)) hidden.push(step);
    old = now;
  }
  tally.check(`${name}: marks`, wrong.length === 0, wrong.slice(0, 5).join("; "));
  tally.check(`${name}: what changed is in view`, hidden.length === 0, hidden.join(" "));
  await browser.size(1366, 768);
}

// Each refused step of the pages: its name, why it is refused here, where the rule stands.
const REFUSED = [
  ["release-crosses-probe", 13, "6 ReleasePending", "After a Release a client sends no ProbeAck",
    "Here client 0 still waits for a ReleaseAck of block 0.", "docs/PROTOCOL.md, Rules"],
  ["release-crosses-probe", 15, "9 NotYet", "A miss register does the first of its eight cases that applies.",
    "Here it waits: a Probe of its block is unanswered (case 7).", "docs/PROTOCOL.md, Miss registers"],
  ["both-upgrade", 18, "1 NoPermission", "a store for a copy at Tip", "Here client 0 has block 0 at Branch.",
    "docs/PROTOCOL.md, Events, state and runs"],
  ["both-upgrade", 22, "8 BlockBusy", "Home serves one Acquire of a block at a time",
    "Here block 0 is the own block of the register that serves client 0's BtoT of b0.",
    "docs/PROTOCOL.md, Rules, and docs/PROTOCOL.md, Miss registers"],
  ["eviction-writes-back", 15, "9 NotYet", "Here it has to wait, or the block has no register",
    "Here it waits: the memory has not acknowledged the victim, block 0 (case 4).", "docs/PROTOCOL.md, Miss registers"],
  ["every-mark", 0, "4 NothingThere", "A message is taken where one waits",
    "Here nothing passes between home and the memory.", "docs/PROTOCOL.md, Events, state and runs"],
  ["every-mark", 1, "10 OutOfRange", "An event of a client or a block that is not there",
    "Here the clients are 0 to 1.", "docs/PROTOCOL.md, Events, state and runs"],
  ["every-mark", 11, "3 WrongFrom", "begin at the permission that the client's copy has",
    "Here client 0 has block 0 at Tip.", "docs/PROTOCOL.md, Events, state and runs"],
];
async function refuses(browser, tally, url) {
  let opened;
  for (const [name, step, title, rule, why, places] of REFUSED) {
    if (name !== opened) await browser.go(url(name));
    opened = name;
    await browser.ask(`location.hash = "#step=${step}"; dispatchEvent(new HashChangeEvent("hashchange"))`);
    const found = await browser.ask(`[${["refusal", "rule", "why", "places"].map(textOf).join(", ")}]`);
    tally.check(`${name}#step=${step}: ${title}`, found[0].includes(title) && found[1].includes(rule), found.join(" | "));
    tally.check(`${name}#step=${step}: why`, found[2] === why, found[2]);
    tally.check(`${name}#step=${step}: places`, found[3] === `See ${places}.`, found[3]);
  }
  await browser.go(url("release-crosses-probe", "#step=13"));
  tally.check("where it succeeds", /succeeds in step 17/.test(await browser.ask(textOf("refusal"))));
}
// Of a page among those of the repository the rule's place is a link, to a heading that is there.
async function links(browser, tally) {
  const name = path.join(top, "crates/golden/data/release-crosses-probe.html");
  for (const step of [13, 15]) {
    await browser.go(`file://${name}#step=${step}`);
    const [file, anchor] = (await browser.ask("(document.querySelector('#places a') || { href: '' }).href")).split("#");
    const headings = file && fs.readFileSync(new URL(file), "utf8").split("\n").filter((line) => /^#/.test(line))
      .map((line) => line.replace(/^#+ /, "").toLowerCase().replace(/[^a-z ]/g, "").replace(/ /g, "-"));
    tally.check(`the place of the rule of step ${step}`, file && headings.includes(anchor), `${file} ${anchor}`);
  }
}

// Buttons, rows, messages, links and fields.
async function tries(browser, tally, url) {
  await browser.go(url("release-crosses-probe", "#step=13"));
  await browser.ask(press("next"));
  tally.check("the button forward", await browser.ask(STEP) === "14");
  await browser.ask(press("back"));
  tally.check("the button back", await browser.ask(STEP) === "13");
  const click = (mark) => `document.querySelector("${mark}").dispatchEvent(new MouseEvent("click", { bubbles: true }))`;
  await browser.ask(click("#row-8"));
  tally.check("a click on a row", await browser.ask(STEP) === "8");
  await browser.ask(click(".lines [data-row='3']"));
  tally.check("a click beside a row's name", await browser.ask(STEP) === "3");
  await browser.ask(click("[data-arrow='6'] path"));
  tally.check("a click on an arrow", await browser.ask(STEP) === "11");
  tally.check("the link", await browser.ask("location.hash") === "#step=11");
  await browser.ask("location.hash = '#step=3'; dispatchEvent(new HashChangeEvent('hashchange'))");
  tally.check("another link", await browser.ask(STEP) === "3");
  await browser.ask("document.getElementById('step').focus(); document.getElementById('step').select()");
  await browser.type("9");
  await browser.key("Enter");
  tally.check("a number that is typed", await browser.ask(STEP) === "9");
  await browser.key("ArrowRight");
  tally.check("Enter leaves the field", await browser.ask(STEP) === "10");
  await browser.key("Home");
  await browser.key("PageDown");
  tally.check("Page Down", await browser.ask(STEP) === "19");
  await browser.key("PageUp");
  tally.check("Page Up", await browser.ask(STEP) === "");
}

// A filter: its rows, its state, and no key leads past its rows.
const ROWS = "[...document.querySelectorAll('.row')].map((row) => Number(row.dataset.row)).join(' ')";
async function filters(browser, tally, url) {
  await browser.go(url("eviction-writes-back", "#step=12"));
  const all = await browser.ask(ROWS);
  await browser.ask(choose("block", "0"));
  tally.check("the rows of a block", await browser.ask(ROWS) === "0 1 2 3 4 5 6 7 8 12 13 16 17", await browser.ask(ROWS));
  const tables = await browser.ask(TABLES);
  const isIts = (row) => [undefined, "0"].includes(row.block) && [undefined, "0"].includes(row.home);
  tally.check("the state of a block", tables.length > 0 && tables.every(isIts), JSON.stringify(tables));
  await browser.key("End");
  tally.check("End stays in the filter", await browser.ask(STEP) === "17");
  await browser.key("PageDown");
  tally.check("Page Down stays in the filter", await browser.ask(STEP) === "17");
  await browser.key("ArrowLeft");
  await browser.key("ArrowLeft");
  tally.check("back in the filter", await browser.ask(STEP) === "13");
  await browser.ask(choose("block", "1"));
  tally.check("the rows of another block", await browser.ask(ROWS) === "9 10 11 14 15 18 19 20 21 22 23");
  await browser.key("Home");
  await browser.key("PageDown");
  tally.check("Page Down goes to the last of few", await browser.ask(STEP) === "23");
  await browser.ask(choose("block", ""));
  await browser.ask(choose("client", "1"));
  const rows = await browser.ask(ROWS);
  tally.check("the rows of a client", rows === "2 3 4 9 10 14 15 16 17 18 19 20 21 22 23", rows);
  tally.check("the state of a client", (await browser.ask(TABLES)).every((row) => row.client !== "0"));
  await browser.ask(choose("client", ""));
  tally.check("every row again", await browser.ask(ROWS) === all);
}

// Where no client step is listed, the page says why: no block is in use, a choice leaves none, or home is next.
const LAST = "document.getElementById('tables').lastChild.textContent";
async function saysWhyNone(browser, tally, url) {
  await browser.go(url("release-crosses-probe"));
  tally.check("permitted at reset", /No block is in use: each client may acquire any block\.$/.test(await browser.ask(LAST)));
  await browser.go(url("release-crosses-probe", "#step=13"));
  tally.check("permitted in a race", /only home or the memory can go on there\.$/.test(await browser.ask(LAST)));
  await browser.ask(choose("client", "1"));
  tally.check("permitted to a client that waits", /None of the block or client that is chosen\.$/.test(await browser.ask(LAST)));
}

// Names for screen readers: each control has one, which has the words in it that are shown; changes are told in words.
const NAMES = `[...document.querySelectorAll("button, input, select, [tabindex], [role=option]")].map((one) => [
  one.getAttribute("aria-label") || (one.labels && one.labels.length ? one.labels[0].textContent : one.textContent),
  ["BUTTON", "g"].includes(one.tagName) ? [...one.childNodes].filter((node) => node.tagName !== "title")
    .map((node) => node.textContent).join(" ") : ""])`;
const plain = (words) => words.replace(/[^\w.]+/g, " ").trim().toLowerCase();
async function names(browser, tally, url) {
  await browser.go(url("release-crosses-probe", "#step=14"));
  const wrong = (await browser.ask(NAMES)).filter(([name, shows]) => !name || !plain(name).includes(plain(shows)));
  tally.check("names have the words that are shown", wrong.length === 0, JSON.stringify(wrong));
  const told = await browser.ask(TOLD);
  tally.check("the step is told", /^Step 14 take_c 0.0.C.0, sent 0.0.D.1 6.0 ReleaseAck\. Changed: /.test(told), told);
  tally.check("changes are told", /home b0/.test(told) && /channel C of client 0 in bank 0/.test(told)
    && /channel D of client 0 in bank 0/.test(told), told);
  const wide = "document.querySelector('#chart').scrollWidth <= document.querySelector('#chart').clientWidth";
  tally.check("readable on a laptop", await browser.ask(wide));
}

// The chart: each arrow from the row and the lifeline that sent it to those that took it; each client's bands.
const CHART = `(() => { const number = (node, name) => Number(node.getAttribute(name));
  return { lifelines: Object.fromEntries([...document.querySelectorAll(".heads text")].map((one) =>
      [one.textContent, number(one, "x")])),
    rows: Object.fromEntries([...document.querySelectorAll(".lines [data-row]")].map((one) =>
      [one.dataset.row, number(one, "y") + number(one, "height") / 2])),
    arrows: [...document.querySelectorAll(".message")].map((one) => [Number(one.dataset.arrow),
      one.querySelector(".arrow").getAttribute("d").match(/-?[\\d.]+/g).map(Number)]),
    bands: [...document.querySelectorAll("[data-band]")].map((one) => [number(one, "x") + number(one, "width") / 2,
      number(one, "y"), number(one, "y") + number(one, "height"), one.getAttribute("class")].join(" ")) }; })()`;
function bandsOf(perms, chart, clients) {
  const found = [];
  const bottom = Math.max(...Object.values(chart.rows)) + 14;
  for (let who = 0; who < clients; who += 1) {
    let since = 0;
    for (let step = 1; step <= perms.length; step += 1) {
      if (step < perms.length && perms[step][who] === perms[since][who]) continue;
      if (perms[since][who] !== "None") {
        const end = chart.rows[step] || bottom;
        found.push([chart.lifelines["client " + who], chart.rows[since], end, perms[since][who]].join(" "));
      }
      since = step;
    }
  }
  return found;
}
async function draws(browser, tally, url, name) {
  await browser.go(url(name, "#step=0"));
  const data = JSON.parse(await browser.ask(DATA));
  const chart = await browser.ask(CHART);
  const wrong = data.arrows.filter(([sent, taken, from, to], index) => {
    const drawn = chart.arrows.find((one) => one[0] === index);
    if (!drawn) return true;
    const [left, start, right, end] = drawn[1];
    const side = chart.lifelines[to] > chart.lifelines[from] ? 1 : -1;
    const isTaken = taken < 0 || (end === chart.rows[taken] - 8 && right === chart.lifelines[to] - side * 6);
    return !(left === chart.lifelines[from] + side * 6 && start === chart.rows[sent] + 8 && isTaken);
  });
  tally.check(`${name}: arrows`, wrong.length === 0 && chart.arrows.length === data.arrows.length,
    JSON.stringify(wrong.slice(0, 3)));
  // The bands are of the first message's block: what the table of clients says of it at each step.
  const block = String(data.arrows[0][5]);
  const perms = [];
  for (let step = 0; step < data.rows.length; step += 1) {
    const rows = (await browser.ask(TABLES)).filter((row) => row.client !== undefined && row.block === block);
    perms.push(Array.from({ length: data.geometry.clients }, (_, who) => {
      const row = rows.find((one) => one.client === String(who));
      return row ? row.cells[2] : "None";
    }));
    await browser.key("ArrowRight");
  }
  const wanted = bandsOf(perms, chart, data.geometry.clients);
  const [drawn, told] = [chart.bands, wanted].map((bands) => bands.sort().join("; "));
  tally.check(`${name}: bands`, drawn === told, `${drawn}, not ${told}`);
}

async function schemes(browser, tally, url, shots) {
  const colours = [];
  for (const scheme of ["light", "dark"]) {
    await browser.scheme(scheme);
    await browser.go(url("release-crosses-probe", "#step=14"));
    colours.push(await browser.ask("getComputedStyle(document.body).backgroundColor + getComputedStyle(document.body).color"));
    if (shots) for (const name of PAGES) {
      await browser.go(url(name, "#step=14"));
      await browser.shot(path.join(shots, `${name}-${scheme}.png`));
    }
  }
  tally.check("light and dark", colours[0] === "rgb(255, 255, 255)rgb(31, 35, 40)"
    && colours[1] === "rgb(13, 17, 23)rgb(230, 237, 243)", colours.join(" "));
}

const ofEach = (trial) => async (browser, tally, url) => { for (const name of PAGES) await trial(browser, tally, url, name); };
const TRIALS = { walks: ofEach(walks), shows, marks: ofEach(marks), refuses, tries, filters, saysWhyNone, names, draws: ofEach(draws) };

module.exports = { CHART, DATA, PAGES, STATE, STEP, TABLES, TRIALS, choose, links, press, schemes, textOf, top };
