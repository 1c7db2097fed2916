"use strict";
// coverage.js BROWSER TLCHECK [--shots FOLDER]: opens a page of `tlcheck --coverage --html` in a headless Chromium, and one with
// `--home`, and tries what a reader does: sums, races, filters, the order of the rows, the command in each row; then the words of
// the command line, and that each fault that is planted into the page is found. Each trial that fails prints a line; the last
// line is 'N passed, M failed'.
const { execFileSync, spawnSync } = require("child_process");
const fs = require("fs");
const path = require("path");
const { finds, plant, runs } = require("./shared.js");

// One client takes a block, stores to it, and gives it up while a Probe of it is under way; two take it one after the other.
const RECORDS = {
  one: `clients 1 block_bytes 8 memory_blocks 1
acquire 0 0 NtoT|accept 0 0|get 0|serve 0|take_data 0|grant 0 0|take_grant 0 0|take_grant_ack 0 0|store 0 0x00000000 aa
probe 0 0 toN|release 0 0 TtoN|take_c 0 0|take_release_ack 0 0|answer_probe 0 0|take_c 0 0|put 0|serve 0|take_put_ack 0`,
  two: `clients 2 block_bytes 8 memory_blocks 1
acquire 0 0 NtoB|accept 0 0|get 0|serve 0|take_data 0|grant 0 0|take_grant 0 0|acquire 1 0 NtoB|take_grant_ack 0 0
accept 1 0|probe 0 0 toB|answer_probe 0 0|take_c 0 0|grant 1 0|take_grant 1 0|take_grant_ack 1 0|load 1 0x00000000 00`,
};

// The words of a situation that say what is in flight, as the races name it.
const FLIGHT = {
  AcquireBlock: "Acquire", ProbeBlock: "Probe", ProbeAckData: "ProbeAck", ReleaseData: "Release", GrantData: "Grant",
};
const flightsOf = (words) => words.split("; ").flatMap((part) => {
  if (part.startsWith("elsewhere ")) return part.split(" ").slice(1).map((one) => "elsewhere " + one);
  if (part.startsWith("home ") && part.includes(", ")) return [part.split(" ").pop()];
  return [...part.matchAll(/, on [A-E] (\w+)/g)].map(([, one]) => FLIGHT[one] || one);
});

const SECTIONS = `[...document.querySelectorAll("section")].map((section) => ({
  id: section.id, title: section.querySelector("h1").textContent, told: section.querySelector("[role=status]").textContent,
  sums: [...section.querySelectorAll(".sums tbody tr")].map((row) => [...row.cells].map((cell) => cell.textContent.trim())),
  races: [...section.querySelectorAll(".races button")].map((one) => [one.dataset.race, one.textContent]),
  choices: [...section.querySelectorAll("[name=race] option")].map((one) => one.value),
  rows: [...section.querySelectorAll(".rows tbody tr")].map((row) => ({ isHidden: row.hidden || row.offsetHeight === 0,
    isShaded: row.classList.contains("never"), cells: [...row.cells].map((cell) => cell.textContent.trim()) })) }))`;
const act = (id, name, change) => `{ const one = document.querySelector('#${id} [name=${name}]'); one.${change};
  one.dispatchEvent(new Event("change", { bubbles: true })); }`;
const press = (id, data, value) =>
  `[...document.querySelectorAll('#${id} button')].find((one) => one.dataset.${data} === '${value}').click()`;

// The text's own tables: of each section the title, the sums by action, and the rows by their numbers, as the page has their
// cells. A row has one more with what home reaches, a sum two.
function tablesOf(text, isByHome) {
  const tables = {};
  let table;
  for (const line of text.trim().split("\n")) {
    const head = /^(clients (\d+): .*), (\d+) events beyond$/.exec(line);
    const row = (isByHome ? /^(\d+\.\d+) (\d+) (home|-) (\S+) (.*)$/ : /^(\d+\.\d+) (\d+) (\S+) (.*)$/).exec(line);
    const sum = (isByHome ? /^(.+): (\d+) of (\d+), (\d+) of (\d+)$/ : /^(.+): (\d+) of (\d+)$/).exec(line);
    if (head) table = tables["clients-" + head[2]] = { title: head[1], sums: [], rows: {} };
    else if (row) table.rows[row[1]] = [row[1], row.at(-1), ...row.slice(2, -1), `tlcheck --how ${row[1]}`];
    else table.sums.push([sum[1], sum[2], sum[3], String(sum[3] - sum[2]), ...sum.slice(4)]);
  }
  return tables;
}

// What stands there when the page is opened is what the text has.
async function opens(browser, tally, url, tables) {
  browser.faults.length = 0;
  await browser.go(url);
  for (const { id, title, told, sums, rows } of await browser.ask(SECTIONS)) {
    const table = tables[id];
    tally.check(`${id}: its title`, title === table.title, title);
    tally.check(`${id}: its sums`, JSON.stringify(sums) === JSON.stringify(table.sums));
    const count = Object.keys(table.rows).length;
    tally.check(`${id}: each row is shown`, rows.every((row) => !row.isHidden) && told === `${count} of ${count} situations`, told);
    const numbers = new Set(rows.map(({ cells }) => cells[0]));
    tally.check(`${id}: each situation has one row`, numbers.size === count && rows.length === count);
    tally.check(`${id}: each row is the text's, with its command`, rows.every(({ cells, isShaded }) =>
      JSON.stringify(cells) === JSON.stringify(table.rows[cells[0]]) && isShaded === (cells[2] === "0")));
    const places = rows.map(({ cells }) => [sums.findIndex(([action]) => action === cells[1].split(";")[0]), cells[1]]);
    tally.check(`${id}: by action, and then by words`, places.every(([action, words], i) => i === 0 || places[i - 1][0] < action
      || (places[i - 1][0] === action && places[i - 1][1] < words)));
  }
  tally.check("no error", browser.faults.length === 0, browser.faults.join("\n"));
}

// A cell of the races counts the situations whose words have both messages.
async function races(browser, tally, url) {
  await browser.go(url);
  for (const { id, races: cells, choices, rows } of await browser.ask(SECTIONS)) {
    const counts = new Map();
    for (const { cells: [, words, events] } of rows) {
      const flights = flightsOf(words);
      for (const one of flights) {
        for (const other of flights) {
          if (one === other) continue;
          const [reached, all] = counts.get(`${one}+${other}`) || [0, 0];
          counts.set(`${one}+${other}`, [reached + (events !== "0"), all + 1]);
        }
      }
    }
    tally.check(`${id}: each race has one cell`, cells.length * 2 === counts.size, `${cells.length} of ${counts.size / 2}`);
    for (const [race, said] of cells) {
      tally.check(`${id}: ${race}`, said === (counts.get(race) || []).join("/"), said);
    }
    tally.check(`${id}: each race may be chosen`, JSON.stringify(choices) === JSON.stringify(["", ...cells.map(([race]) => race)]));
  }
}

// Each filter leaves its rows, alone and with another. That of what home reaches is there where its column is.
async function filters(browser, tally, url) {
  await browser.go(url);
  const shown = async (id) => {
    const section = (await browser.ask(SECTIONS)).find((one) => one.id === id);
    const left = section.rows.filter((row) => !row.isHidden);
    return { left, rows: section.rows, isTold: section.told === `${left.length} of ${section.rows.length} situations` };
  };
  const only = async (id, name, fits) => {
    const { left, rows, isTold } = await shown(id);
    const isExact = left.length > 0 && left.length === rows.filter(fits).length && left.every(fits);
    tally.check(`${id}: ${name}`, isTold && isExact, left.length);
  };
  const isNever = ({ cells }) => cells[2] === "0";
  const isByHome = ({ cells }) => cells[3] === "home";
  const isOf = (action) => ({ cells }) => cells[1].split(";")[0] === action;
  const hasBoth = (race) => ({ cells }) => race.split("+").every((one) => flightsOf(cells[1]).includes(one));
  for (const { id, races: cells, rows } of await browser.ask(SECTIONS)) {
    await browser.ask(act(id, "never", "checked = true"));
    await only(id, "never reached", isNever);
    await browser.ask(act(id, "action", "value = 'take_c'"));
    await only(id, "never reached, of take_c", (row) => isNever(row) && isOf("take_c")(row));
    await browser.ask(act(id, "never", "checked = false"));
    await only(id, "of take_c", isOf("take_c"));
    const hasHome = await browser.ask(`document.querySelector('#${id} [name=home]') !== null`);
    tally.check(`${id}: the filter of what home reaches`, hasHome === (rows[0].cells.length === 6));
    if (hasHome) {
      await browser.ask(act(id, "home", "checked = true"));
      await only(id, "of take_c, that this home reaches", (row) => isByHome(row) && isOf("take_c")(row));
      await browser.ask(act(id, "home", "checked = false"));
    }
    await browser.ask(press(id, "action", "probe toN"));
    await only(id, "an action that is pressed", isOf("probe toN"));
    for (const [race] of cells) {
      await browser.ask(press(id, "race", race));
      await only(id, `the race ${race} that is pressed`, hasBoth(race));
    }
    await browser.ask(act(id, "race", "value = ''"));
    await only(id, "all again", () => true);
  }
}

// Standard input is covered as a file is; an option that stands alone, or is none, is not taken for a file.
function words(tally, tlcheck, files) {
  const said = (args, input) => spawnSync(tlcheck, args, { input, maxBuffer: 1 << 26, encoding: "utf8" });
  const [file] = files;
  const own = said(["--coverage", file]);
  const same = said(["--coverage", "-"], fs.readFileSync(file));
  tally.check("standard input", same.status === 0 && same.stdout === own.stdout.replaceAll(file + ":", "-:"), same.stderr);
  for (const args of [[], ["--how"], ["--coverage"], ["--coverage", "--html"], ["--progress"], ["--html"], ["-x"],
    ["--coverage", "--other", file], ["--coverage", file, "--html"], ["--progress", "--coverage"], ["--how", "1.0"],
    ["--coverage", "--home"], ["--coverage", "--home", "--html"], ["--home", file], ["--how", "--script"]]) {
    const { status, stdout, stderr } = said(args);
    tally.check(`tlcheck ${args.join(" ")}`, status === 2 && stdout === "" && stderr === "error usage\n", `${status} ${stderr}`);
  }
}

// The command of a row prints a run whose first line is the row's number and words.
async function leads(browser, tally, url, tlcheck) {
  await browser.go(url);
  for (const { id, rows } of await browser.ask(SECTIONS)) {
    for (const { cells } of rows.filter((row, i) => i % 97 === 0)) {
      const [number, words, command] = [cells[0], cells[1], cells.at(-1)];
      const run = execFileSync(tlcheck, command.split(" ").slice(1)).toString();
      tally.check(`${id}: ${command}`, run.startsWith(`# ${number} ${words}\n`), run.split("\n")[0]);
    }
  }
}

// Faults of the page's script, in the form of plants.js.
const PLANTS = [
  ["the filter of what was never reached is off", "filters", "!never.checked ||", "true ||"],
  ["the filter of what home reaches is off", "filters", "!home?.checked ||", "true ||"],
  ["the filter by action is off", "filters", "!action.value ||", "true ||"],
  ["a race asks for one of two", "filters", ".every((flight) =>", ".some((flight) =>"],
  ["a race takes the messages of others for its own", "filters", "includes(`|${flight}|`)", "includes(`${flight}|`)"],
  ["a pressed race keeps the action", "filters", "[race.value, action.value] = [both, \"\"]", "race.value = both"],
  ["a count is told of all rows", "filters", "rows.filter((row) => !row.hidden).length", "rows.length"],
  ["no race may be chosen", "races", "race.append(", "void ("],
  ["a row is gone", "opens", "row.hidden = !fits(row);", "row.hidden = !fits(row) || row === rows[7];"],
];

async function plants(browser, tally, text, tables) {
  const file = path.join(browser.folder, "planted.html");
  const trials = { opens, races, filters };
  for (const [name, trial, old, planted] of PLANTS) {
    fs.writeFileSync(file, plant(tally, name, text, old, planted));
    const isFound = await finds((once) => trials[trial](browser, once, `file://${file}`, tables));
    tally.check(`the plant '${name}' is found by ${trial}`, isFound);
  }
}

async function shots(browser, url, folder) {
  for (const scheme of ["light", "dark"]) {
    await browser.scheme(scheme);
    await browser.go(url);
    for (const place of ["h1", ".races", ".rows"]) {
      await browser.ask(`document.querySelector("${place}").scrollIntoView()`);
      await browser.shot(path.join(folder, `coverage-${place.replace(/\W/g, "")}-${scheme}.png`));
    }
  }
}

const [program, tlcheck, ...options] = process.argv.slice(2);
runs(program, async (browser, tally) => {
  const files = Object.entries(RECORDS).map(([name, record]) => {
    const file = path.join(browser.folder, name);
    fs.writeFileSync(file, record.replaceAll("|", "\n") + "\n");
    return file;
  });
  const said = (...words) => execFileSync(tlcheck, [...words, ...files], { maxBuffer: 1 << 26 }).toString();
  const page = path.join(browser.folder, "coverage.html");
  const url = `file://${page}`;
  let text, tables;
  for (const home of [[], ["--home"]]) {
    text = said("--coverage", ...home, "--html");
    tables = tablesOf(said("--coverage", ...home), home.length > 0);
    fs.writeFileSync(page, text);
    for (const trial of [opens, races, filters]) await trial(browser, tally, url, tables);
  }
  await leads(browser, tally, url, tlcheck);
  words(tally, tlcheck, files);
  await plants(browser, tally, text, tables);
  if (options[0] === "--shots") await shots(browser, url, options[1]);
});
