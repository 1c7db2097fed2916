"use strict";
// What a page says is permitted: each block that is in use is covered, and with tlcache each such step succeeds, and each other
// one is refused.
const { spawnSync } = require("child_process");
const fs = require("fs");
const os = require("os");
const path = require("path");
const { DATA, choose, top } = require("./trials.js");

// What tlcache answers to steps.
function answers(tlcache, script, steps) {
  const text = script.replace(/steps = \[[^]*\]/, () => "steps = [" + steps.map((step) => `"${step}"`).join(", ") + "]");
  const file = path.join(os.tmpdir(), `steps-${process.pid}.toml`);
  fs.writeFileSync(file, text);
  const { stdout } = spawnSync(tlcache, ["trace", file], { encoding: "utf8" });
  fs.unlinkSync(file);
  return stdout.split("\n").slice(0, steps.length).map((line) => line.replace(/^\d+ /, ""));
}
function candidates(clients, blocks, blockBytes, tickets) {
  const found = [];
  for (let client = 0; client < clients; client += 1) {
    for (const block of blocks) {
      const address = "0x" + (block * blockBytes).toString(16).padStart(8, "0");
      found.push(`load ${client} ${address} 1`, `store ${client} ${address} 00`);
      for (const grow of ["NtoB", "NtoT", "BtoT"]) found.push(`acquire ${client} ${block} ${grow}`);
      for (const prune of ["TtoB", "TtoN", "BtoN"]) found.push(`release ${client} ${block} ${prune}`);
    }
  }
  for (const ticket of tickets) {
    for (const verb of ["answer_probe", "take_grant", "take_release_ack"]) found.push(verb + " " + ticket);
  }
  return found;
}

// The blocks of which a cell of the data shows anything, and the step's own where it names one.
function inUse(data, state, step) {
  const found = new Set();
  data.cells.forEach((name, place) => {
    const [, kind, one, two] = name.split(" ");
    const text = state[place];
    if (kind === "client" && text !== "N - N") found.add(Number(two));
    if (kind === "home" && text !== "- -") found.add(Number(one));
    if (kind === "channel") for (const m of text.split(";").slice(0, -1)) found.add(Number(m.split(",")[1]));
    if (kind === "registers") {
      for (const [own, , , , , victim] of text.split(";").slice(0, -1).map((r) => r.split(","))) {
        found.add(Number(own));
        if (victim !== "-") found.add(Number(victim));
      }
    }
  });
  const named = /^(?:advance|evict|serve_memory|take_memory) (\d+)$/.exec(step)
    || /^(?:acquire|release) \d+ (\d+)/.exec(step);
  if (named && Number(named[1]) < data.geometry.blocks) found.add(Number(named[1]));
  return found;
}
const LISTED = `[...document.querySelectorAll("[data-step]")].map((step) =>
  [Number(step.closest("tr").cells[1].textContent.slice(1)), step.dataset.step])`;
const BLOCKS = `[...document.getElementById("block").options].map((one) => one.value).filter((value) => value)`;

async function permits(browser, tally, url, name, tlcache) {
  const script = fs.readFileSync(path.join(top, "crates/golden/data", name + ".toml"), "utf8");
  await browser.go(url(name));
  const data = JSON.parse(await browser.ask(DATA));
  const steps = data.rows.map((row) => row[0]);
  const tickets = data.rows.map((row) => /^sent (\S+)/.exec(row[1])).filter((found) => found).map((found) => found[1]);
  const numbers = await browser.ask(BLOCKS);
  const all = candidates(data.geometry.clients, numbers.map(Number), data.geometry.blockBytes, tickets);
  const state = data.start.slice();
  const [wrong, uncovered] = [[], []];
  for (let step = -1; step < steps.length; step += 1) {
    const changes = step < 0 ? [] : data.changes[step];
    for (let i = 0; i < changes.length; i += 2) state[changes[i]] = changes[i + 1];
    const listed = new Set((await browser.ask(LISTED)).map(([, words]) => words));
    const permitted = [];
    for (const number of numbers) {
      await browser.ask(choose("block", number));
      permitted.push(...await browser.ask(LISTED));
    }
    await browser.ask(choose("block", ""));
    const used = inUse(data, state, steps[step] || "");
    for (const [block, words] of permitted) {
      if (used.has(block) !== listed.has(words)) uncovered.push(`after ${step}: ${words}`);
    }
    const past = steps.slice(0, step + 1);
    if (tlcache) {
      const may = new Set(permitted.map(([, words]) => words));
      for (const one of may) {
        const answer = answers(tlcache, script, [...past, one])[past.length];
        if (/^refused/.test(answer)) wrong.push(`after ${step}: ${one} is refused`);
      }
      const others = all.filter((one) => !may.has(one));
      answers(tlcache, script, [...past, ...others]).slice(past.length).forEach((answer, place) => {
        if (!/^refused/.test(answer)) wrong.push(`after ${step}: ${others[place]} is not refused`);
      });
    }
    await browser.key("ArrowRight");
  }
  tally.check(`${name}: permitted steps of each block in use`, uncovered.length === 0, uncovered.slice(0, 5).join("; "));
  if (tlcache) tally.check(`${name}: permitted steps`, wrong.length === 0, wrong.slice(0, 5).join("; "));
}

module.exports = { permits };
