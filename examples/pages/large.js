"use strict";
// Pages of large traces, made by tlchart: each opens at the start and at the last step in two seconds and takes a step in a
// tenth of one, of its thread's processor time; and few nodes are there whatever the trace.
const { spawnSync } = require("child_process");
const fs = require("fs");
const path = require("path");
const { shownIn } = require("./records.js");
const { DATA, STEP, TABLES, choose, press, textOf } = require("./trials.js");

const OPENS = 2000;
const STEPS = 100;
const NODES = 12000;
const GROUPS = (numbers, steps) => `version = 2\n${Object.entries({ ...numbers, turns: 1000000 })
  .map(([key, value]) => `${key} = ${value}`).join("\n")}\nsteps = [\n${steps.map((step) => `    "${step}",`).join("\n")}\n]\n`;

// The bank of a block: the exclusive or of the groups of its number's digits.
function bankOf(banks, block) {
  let found = 0;
  for (let rest = block; rest > 0; rest = Math.floor(rest / banks)) found ^= rest % banks;
  return found;
}
// A client asks for each of 512 blocks, and each comes home.
function manyAtHome() {
  const numbers = { clients: 8, banks: 8, block_bytes: 64, sets: 64, ways: 8, registers: 8, copies: 64, memory_blocks: 65536 };
  const serials = new Map();
  const ticket = (bank, client, channel) => {
    const key = `${bank}.${client}.${channel}`;
    serials.set(key, serials.has(key) ? serials.get(key) + 1 : 0);
    return `${key}.${serials.get(key)}`;
  };
  const steps = [];
  for (let block = 0; block < 512; block += 1) {
    const [client, bank] = [block % 8, bankOf(8, block)];
    steps.push(`acquire ${client} ${block} NtoT`, `accept ${ticket(bank, client, "A")}`, `advance ${block}`,
      `serve_memory ${block}`, `take_memory ${block}`, `advance ${block}`, `take_grant ${ticket(bank, client, "D")}`,
      `take_grant_ack ${ticket(bank, client, "E")}`);
  }
  return GROUPS(numbers, steps);
}
// As many blocks as steps: half of the Acquires wait, and the others find no room among the client's copies.
function manyNamed() {
  const numbers = { clients: 4, banks: 8, block_bytes: 64, sets: 64, ways: 8, registers: 8, copies: 64, memory_blocks: 65536 };
  return GROUPS(numbers, Array.from({ length: 4096 }, (_, block) => `acquire ${Math.floor(block / 8) % 4} ${block} NtoT`));
}
// Two clients have a block in turns: a record of more entries than a page shows, whose last round is not over.
function turns(rounds) {
  const round = (to, from) => [`acquire ${to} 0 NtoT`, `accept ${to} 0`, `probe ${from} 0 toN`,
    `answer_probe ${from} 0`, `take_c ${from} 0`, `grant ${to} 0`, `take_grant ${to} 0`, `take_grant_ack ${to} 0`];
  const first = ["acquire 0 0 NtoT", "accept 0 0", "get 0", "serve 0", "take_data 0", ...round(0, 1).slice(5)];
  const entries = Array.from({ length: rounds }, (_, number) => (number % 2 ? round(0, 1) : round(1, 0))).flat();
  return ["clients 2 block_bytes 8 memory_blocks 4", ...first, ...entries.slice(0, -4)];
}
function madeBy(program, words, input) {
  const { status, stdout } = spawnSync(program, words, { input, encoding: "utf8", maxBuffer: 1 << 28 });
  return status === 0 ? stdout : undefined;
}

// Some steps, after each of which the page is laid out again.
const AGAIN = (id, count) => `for (let i = 0; i < ${count}; i += 1) { document.getElementById("${id}").click();
  document.body.getBoundingClientRect(); }`;
const HEADS_IN_VIEW = `(() => { const chart = document.getElementById("chart").getBoundingClientRect();
  const is = (one) => { const at = one.getBoundingClientRect();
    return at.left >= chart.left - 1 && at.right <= chart.right + 1 && at.top >= chart.top - 1
      && at.bottom <= chart.bottom + 1; };
  return is(document.querySelector(".names [aria-selected=true] text:last-child"))
    && is(document.querySelector(".corner")) && document.querySelector(".heads").getBoundingClientRect().top >= chart.top - 1
    && is(document.querySelector("[id='mark-" + document.getElementById("step").value + "'] > :first-child")); })()`;
// Each kind of refusal, as each kind of step meets it, has its reason.
async function reasons(browser, tally, name) {
  const rows = JSON.parse(await browser.ask(DATA)).rows;
  const met = new Map();
  rows.forEach(([step, , , mark], index) => {
    if (!/^refused/.test(mark)) return;
    const key = `${mark} ${step.split(" ")[0]}`;
    met.set(key, [...(met.get(key) || []), index].slice(0, 3));
  });
  for (const [key, steps] of met) {
    for (const step of steps) {
      await browser.ask(`location.hash = "#step=${step}"; dispatchEvent(new HashChangeEvent("hashchange"))`);
      const why = await browser.ask(textOf("why"));
      tally.check(`${name}#step=${step}: why ${key}`, /^Here \S.*\S\.$/.test(why) && !/undefined|NaN/.test(why), why);
    }
  }
}
async function opens(browser, tally, name, file, steps) {
  const timed = [];
  const [last, pages] = [steps - 1, Math.ceil(steps / 200)];
  browser.faults.length = 0;
  for (const hash of ["", `#step=${last}`]) {
    // A page may get a thread of its own: then its time begins with it.
    await browser.go("about:blank");
    const before = await browser.busy();
    await browser.go(`file://${file}${hash}`);
    const opened = await browser.busy();
    const took = opened < before ? opened : opened - before;
    tally.check(`${name}${hash} opens`, took < OPENS, `${took} ms`);
    await browser.ask(AGAIN(hash === "" ? "next" : "back", 40));
    const step = (await browser.busy() - opened) / 40;
    tally.check(`${name}${hash}: a step`, step < STEPS, `${step} ms`);
    timed.push(Math.round(took), Math.round(step * 10) / 10);
    const nodes = await browser.ask("document.getElementsByTagName('*').length");
    tally.check(`${name}${hash}: nodes`, nodes < NODES, nodes);
    tally.check(`${name}${hash}: names and the lifeline are in view`, await browser.ask(HEADS_IN_VIEW));
  }
  tally.check(`${name}: a page has 200 rows at most`, await browser.ask("document.querySelectorAll('.row').length") <= 200);
  await browser.key("Home");
  await browser.key("End");
  tally.check(`${name}: the last step`, await browser.ask(STEP) === String(last));
  tally.check(`${name}: the last page`, await browser.ask(textOf("pageName")) === `page ${pages} of ${pages}`);
  await browser.ask(press("pageBack"));
  tally.check(`${name}: the page before`, await browser.ask(STEP) === String(200 * (pages - 2)), await browser.ask(STEP));
  await browser.ask(press("back"));
  tally.check(`${name}: a step back is a page back`, await browser.ask(textOf("pageName")) === `page ${pages - 2} of ${pages}`);
  await reasons(browser, tally, name);
  tally.check(`${name}: no error`, browser.faults.length === 0, browser.faults.slice(0, 3).join("\n"));
  console.log(`${name}, processor time: opens in ${timed[0]} ms, at the last step in ${timed[2]} ms; a step takes `
    + `${timed[1]} and ${timed[3]} ms`);
}
// What is more than a table shows is counted, and a block that is chosen is shown.
async function chosen(browser, tally, name) {
  const more = "[...document.querySelectorAll('.more')].map((one) => one.textContent)";
  tally.check(`${name}: more is counted`, (await browser.ask(more)).some((words) => /^\d+ more: choose a block$/.test(words)));
  await browser.ask(choose("block", "300"));
  tally.check(`${name}: a block's state`, (await browser.ask(more)).length === 0
    && await browser.ask("document.querySelectorAll(\"[data-home='300']\").length") === 1);
  await browser.ask(choose("block", "70000"));
  tally.check(`${name}: no such block`, await browser.ask("document.getElementById('block').validationMessage") !== "");
}
// Of a long record the last entries are shown, and begin with the state that those before them left.
async function long(browser, tally, tlchart) {
  const [name, lines] = ["a long record", turns(700)];
  const [made, cut] = [lines, lines.slice(0, -4096)].map((some, index) => {
    const page = madeBy(tlchart, ["--html", "--record", "-"], some.join("\n") + "\n");
    tally.check(`${name}: page ${index} is made`, page !== undefined);
    const file = path.join(browser.folder, `long-record-${index}.html`);
    fs.writeFileSync(file, page || "");
    return file;
  });
  browser.faults.length = 0;
  await browser.go(`file://${cut}#line=${lines.length - 4096}`);
  const before = shownIn(await browser.ask(TABLES)).sort().join("; ");
  await browser.go(`file://${made}#line=${lines.length}`);
  const { first, rows } = JSON.parse(await browser.ask(DATA));
  tally.check(`${name}: the last 4,096 entries`, first === lines.length - 1 - 4096 && rows.length === 4096
    && rows[0][4] === lines.length - 4095, [first, rows.length, rows[0][4]].join(", "));
  tally.check(`${name}: a link to its last line`, await browser.ask(STEP) === String(lines.length));
  await browser.key("Home");
  const begun = shownIn(await browser.ask(TABLES)).sort().join("; ");
  tally.check(`${name}: the state before them`, begun === before && begun.includes("ProbeAck"),
    `${begun}, not ${before}`);
  tally.check(`${name}: no error`, browser.faults.length === 0, browser.faults.join("\n"));
  for (const file of [made, cut]) fs.unlinkSync(file);
}
async function large(browser, tally, tlchart, tlgen) {
  await long(browser, tally, tlchart);
  const random = madeBy(tlgen, ["7", "trace", "version=2", "clients=8", "banks=8", "steps=4096", "spots=64"]);
  const scripts = { "4,096 random steps": random, "512 blocks at home": manyAtHome(), "4,096 blocks named": manyNamed() };
  for (const [name, script] of Object.entries(scripts)) {
    const page = script && madeBy(tlchart, ["--html", "-"], script);
    tally.check(`${name}: a page is made`, page !== undefined);
    if (page === undefined) continue;
    const file = path.join(browser.folder, name.replace(/[^\w]+/g, "-") + ".html");
    fs.writeFileSync(file, page);
    tally.check(`${name}: under 20 MB`, page.length < 20e6, page.length);
    const steps = script.match(/^ *"/gm).length;
    tally.check(`${name}: thousands of steps`, steps > 4000, steps);
    await opens(browser, tally, name, file, steps);
    if (name !== "4,096 random steps") await chosen(browser, tally, name);
    fs.unlinkSync(file);
  }
}

module.exports = { chosen, large, long, manyAtHome, manyNamed, opens };
