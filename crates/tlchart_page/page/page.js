"use strict";
(() => {
// The data: what each cell shows at the start, and which cells show another text after each step. That of a record of
// events has a verdict, and in place of cells the state of each block in lines.
const given = JSON.parse(document.getElementById("data").textContent);
const isRecord = given.verdict !== undefined;
const CHANNELS = ["A", "B", "C", "D", "E"];
const data = isRecord ? { ...given, ...cellsOf(given) } : given;
const g = data.geometry;
const last = data.rows.length - 1;
// A row is a step, with its index; or an entry of a record, with the number of its line.
const [WORD, NAME] = isRecord ? ["line", "Line"] : ["step", "Step"];
const numberOf = (index) => (isRecord ? data.rows[index][4] : index);
const indexOf = (number) => (isRecord ? data.rows.findLastIndex((row) => row[4] <= number) : number);
// How many steps the chart shows at once, and how many rows a table shows beside those that the step is about.
const PAGE = 200;
const ROWS = 30;
// Up to as many blocks are listed for choice; of more the number is typed.
const LISTED = 64;
// A channel has room for as many messages; what a record is of may have more.
const FULL = isRecord ? Infinity : 64;

// ---- Small tools

// An element. Children are nodes, texts or arrays of them; what is false or undefined is left out.
function make(tag, attributes, ...children) {
  const node = tag.startsWith("svg:")
    ? document.createElementNS("http://www.w3.org/2000/svg", tag.slice(4)) : document.createElement(tag);
  for (const [name, value] of Object.entries(attributes || {})) {
    if (name.startsWith("on")) node.addEventListener(name.slice(2), value);
    else if (value === true) node.setAttribute(name, "");
    else if (value !== false && value !== undefined) node.setAttribute(name, value);
  }
  for (const child of children.flat(Infinity)) if (child !== undefined && child !== false) node.append(child);
  return node;
}
const svg = (tag, attributes, ...children) => make("svg:" + tag, attributes, ...children);
const byId = (id) => document.getElementById(id);
const hex = (number) => "0x" + number.toString(16).padStart(8, "0");
const split = (text, mark) => text.split(mark).filter((part) => part !== "");
// Words for screen readers alone, where the eye has a mark; and words for all.
const spoken = (words) => make("span", { class: "sr" }, ` (${words})`);
const news = (words) => make("span", { class: "news" }, words);

// A function of texts, which keeps what it has answered.
function kept(read) {
  const known = new Map();
  return (text) => {
    if (!known.has(text)) {
      if (known.size >= 10000) known.clear();
      known.set(text, read(text));
    }
    return known.get(text);
  };
}

// ---- The states of a record as cells

// The lines of a block's state (docs/RECORD.md, State), in the words of cells.
function partsOf(lines) {
  const parts = { home: "- -", serves: "-", memory: "", clients: new Map() };
  for (const line of lines.split("\n")) {
    const [, is, words] = /^(\w+(?: \d+)?): (.*)$/.exec(line) || ["", "", ""];
    if (is === "memory") parts.memory = words;
    else if (is === "home") Object.assign(parts, homePart(words.split(", ")));
    else if (is.startsWith("client ")) parts.clients.set(Number(is.slice(7)), clientPart(words.split(", ")));
  }
  return parts;
}
function homePart([copy, ...rest]) {
  const letters = { Get: "G", AccessAckData: "A", PutFullData: "P", AccessAck: "K" };
  const [what, bytes] = copy.split(" ");
  const serves = rest.find((words) => words.startsWith("serves client "));
  const passes = rest.find((words) => / the memory /.test(words));
  const [kind, data] = passes ? passes.split(" the memory ")[1].split(" ") : [];
  const line = what === "no" ? "-" : what[0].toUpperCase() + bytes;
  return { home: `${line} ${kind ? letters[kind] + (data || "") : "-"}`, serves: serves ? serves.slice(14) : "-" };
}
function clientPart([copy, ...rest]) {
  const words = copy.split(" ");
  const letter = words[1] === "dirty" ? "D" : words[0][0];
  const bytes = words[0] === "None" ? "" : words[words.length - 1];
  const recorded = rest.find((one) => one.startsWith("recorded "))[9];
  const wait = rest.includes("waits for a Grant") ? "G" : rest.includes("waits for a ReleaseAck") ? "R" : "-";
  const lanes = { A: [], B: [], C: [], D: [], E: [] };
  for (const one of rest.filter((each) => each.startsWith("on "))) {
    const message = one.slice(5).split(" ");
    const data = /Data$/.test(message[0]) ? message.pop() : "";
    lanes[one[3]].push({ kind: message.join(" "), bytes: data });
  }
  return { text: `${letter}${bytes} ${wait} ${recorded}`, lanes };
}

// The cells of a record, at the start and as each entry changes them. The messages of a channel stand in the order in
// which they were sent; of those that were sent before the first entry that is shown, by block.
function cellsOf({ geometry, blocks: numbers, start, changes, rows }) {
  const [cells, texts, places, lanes] = [[], [], new Map(), new Map()];
  const clients = Array.from({ length: geometry.clients }, (_, who) => who);
  const add = (name, text) => {
    places.set(name, cells.length);
    cells.push(name);
    texts.push(text);
  };
  for (const block of numbers) {
    for (const [kind, text] of [["home", "- -"], ["memory", ""], ["serves", "-"]]) add(`0 ${kind} ${block}`, text);
    for (const who of clients) add(`0 client ${who} ${block}`, "N - N");
  }
  for (const who of clients) {
    for (const channel of CHANNELS) {
      add(`0 channel ${who} ${channel}`, "");
      lanes.set(`0 channel ${who} ${channel}`, { sent: 0, waiting: [] });
    }
  }
  // What a block's messages of a channel are now: some at the front are taken, some at the end are new.
  const flow = (name, block, now) => {
    const lane = lanes.get(name);
    const old = lane.waiting.filter((one) => one.block === block);
    if (now.length < old.length) lane.waiting = lane.waiting.filter((one) => one !== old[0]);
    for (const one of now.slice(old.length)) lane.waiting.push({ serial: lane.sent++, block, ...one });
    return lane.waiting.map((one) => `${one.serial},${one.block},${one.kind},${one.bytes};`).join("");
  };
  const put = (found, block, lines) => {
    const parts = partsOf(lines);
    const set = (name, text) => {
      const place = places.get(name);
      if (texts[place] === text) return;
      texts[place] = text;
      found.push(place, text);
    };
    for (const kind of ["home", "memory", "serves"]) set(`0 ${kind} ${block}`, parts[kind]);
    for (const who of clients) {
      const part = parts.clients.get(who);
      set(`0 client ${who} ${block}`, part ? part.text : "N - N");
      for (const channel of CHANNELS) {
        const name = `0 channel ${who} ${channel}`;
        set(name, flow(name, block, part ? part.lanes[channel] : []));
      }
    }
    return found;
  };
  start.forEach((lines, place) => put([], numbers[place], lines));
  const first = texts.slice();
  const all = changes.map((of) => {
    const found = [];
    for (let i = 0; i < of.length; i += 2) put(found, numbers[of[i]], of[i + 1]);
    return found;
  });
  while (all.length < rows.length) all.push([]);
  return { cells, start: first, changes: all };
}

// ---- What the cells show

const PERMISSION = { N: "None", B: "Branch", T: "Tip", D: "Tip" };
const RANK = { None: 0, Branch: 1, Tip: 2 };
const AWAITED = { "-": "nothing", G: "a Grant", R: "a ReleaseAck" };
const OUTWARD = { "-": "nothing", G: "a Get", A: "AccessAckData", P: "PutFullData", K: "AccessAck" };

const client = kept((text) => {
  const [copy, wait, recorded] = text.split(" ");
  const perm = PERMISSION[copy[0]];
  const dirty = perm === "Tip" ? (copy[0] === "D" ? "dirty" : "clean") : perm === "Branch" ? "clean" : "";
  const hasEntry = perm !== "None" || wait !== "-";
  return { perm, dirty, bytes: copy.slice(1), wait, waits: AWAITED[wait], recorded: PERMISSION[recorded], hasEntry };
});
const home = kept((text) => {
  const [line, passes] = text.split(" ");
  return { has: line !== "-", dirty: line === "-" ? "none" : line[0] === "D" ? "dirty" : "clean",
    bytes: line.slice(1), passes: passes[0], words: OUTWARD[passes[0]], data: passes.slice(1) };
});
const messages = kept((text) => split(text, ";").map((one) => {
  const [serial, block, kind, bytes] = one.split(",");
  return { serial: Number(serial), block: Number(block), kind, bytes };
}));
const openRegisters = kept((text) => split(text, ";").map((one) => {
  const [own, set, way, asks, grow, victim, probed, next] = one.split(",");
  return { own: Number(own), set: Number(set), way: Number(way), client: asks, grow,
    victim: grow === "evict" ? Number(own) : victim === "-" ? null : Number(victim),
    probed: split(probed, " ").map(Number), next };
}));

// The places of each block's cells, of each channel's, of each set's, of each bank's registers. Of a place, the block
// that it is of, and the client.
const blocks = new Map();
const channels = new Map();
const sets = [];
const registers = [];
const blockAt = [];
const clientOf = [];
data.cells.forEach((name, place) => {
  const [bank, kind, one, two] = name.split(" ");
  if (kind === "channel") channels.set(bank + "." + one + "." + two, place);
  else if (kind === "set") sets.push({ bank: Number(bank), set: Number(one), place });
  else if (kind === "registers") registers[Number(bank)] = place;
  else {
    const block = Number(kind === "client" ? two : one);
    if (!blocks.has(block)) blocks.set(block, { block, bank: Number(bank), clients: [], busy: 0 });
    const it = blockAt[place] = blocks.get(block);
    if (kind === "client") it.clients[clientOf[place] = Number(one)] = place;
    else it[kind] = place;
  }
});
const clientNumbers = Array.from({ length: g.clients }, (_, number) => number);

// What the cells show now. Of each block it is counted how many of its cells are not at rest, and of each client in
// each bank how many entries its table has.
const state = data.start.slice();
const entries = Array.from({ length: g.banks }, () => clientNumbers.map(() => 0));
const IDLE = { client: "N - N", home: "- -", serves: "-" };
function count(place, by) {
  const it = blockAt[place];
  if (!it || place === it.memory) return;
  if (!Object.values(IDLE).includes(state[place])) it.busy += by;
  if (clientOf[place] !== undefined && client(state[place]).hasEntry) entries[it.bank][clientOf[place]] += by;
}
function put(place, text) {
  count(place, -1);
  state[place] = text;
  count(place, 1);
}
state.forEach((_, place) => count(place, 1));

// Walks to a step: forward by its changes, back by what stood there before.
const before = [];
let at = -1;
function walk(step) {
  for (; at < step; at++) {
    const changes = data.changes[at + 1];
    before[at + 1] = new Map();
    for (let i = 0; i < changes.length; i += 2) {
      before[at + 1].set(changes[i], state[changes[i]]);
      put(changes[i], changes[i + 1]);
    }
  }
  for (; at > step; at--) for (const [place, text] of before[at]) put(place, text);
}
// What stands in a place after the step, and before it.
const textNow = (place) => state[place];
const textBefore = (place) => (at >= 0 && before[at].has(place) ? before[at].get(place) : state[place]);
const clientAt = (who, block) => client(state[blocks.get(block).clients[who]]);
const homeAt = (block, text = textNow) => home(text(blocks.get(block).home));
const lane = (bank, who, channel, text = textNow) => messages(text(channels.get(`${bank}.${who}.${channel}`)));
const registersOf = (bank) => openRegisters(state[registers[bank]]);
const setOf = (block) => Math.floor(block / g.banks) % g.sets;

// The cells that a step changed, in words.
function changedWords() {
  const words = at < 0 ? [] : [...before[at].keys()].map((place) => {
    const [bank, kind, one, two] = data.cells[place].split(" ");
    switch (kind) {
      case "client": return `client ${one} b${two}`;
      case "channel": return `channel ${two} of client ${one}${isRecord ? "" : " in bank " + bank}`;
      case "serves": return `what home serves of b${one}`;
      case "set": return `ways of set ${one} in bank ${bank}`;
      case "registers": return `registers of bank ${bank}`;
      default: return `${kind} b${one}`;
    }
  });
  return words.length ? "Changed: " + words.join("; ") + "." : "Nothing changed.";
}

// ---- Steps

const sentBy = new Map();
const takenBy = new Map();
const arrowOf = new Map();
data.arrows.forEach((arrow, index) => {
  sentBy.set(arrow[0], index);
  if (arrow[1] >= 0) takenBy.set(arrow[1], index);
});
data.rows.forEach((row, index) => {
  const sent = /^sent (\S+)/.exec(row[1]);
  if (sent) arrowOf.set(sent[1], data.arrows[sentBy.get(index)]);
});

// The channel from which a step takes a message, and that on which it sends one.
const TAKES = { answer_probe: "B", take_grant: "D", take_release_ack: "D", accept: "A", take_c: "C",
  take_grant_ack: "E" };
const SENDS = { acquire: "A", release: "C", answer_probe: "C", take_grant: "E", take_c: "D" };

// The events of a record that name a block alone.
const OF_BLOCK = ["get", "serve", "take_data", "drop", "put", "take_put_ack"];

// What a step is about: its block, and its client, bank and channel where it has them.
const known = [];
function about(index) {
  known[index] = known[index] || look(data.rows[index][0].split(" "), index);
  return known[index];
}
function look(words, index) {
  const [verb, one, two] = words;
  if (isRecord && OF_BLOCK.includes(verb)) return { verb, words, block: Number(one) };
  if (isRecord && verb !== "load" && verb !== "store") {
    return { verb, words, client: Number(one), bank: 0, block: Number(two) };
  }
  if (verb === "load" || verb === "store") {
    return { verb, words, client: Number(one), block: Math.floor(Number(two) / g.blockBytes) };
  }
  if (verb === "acquire" || verb === "release") return { verb, words, client: Number(one), block: Number(two) };
  if (TAKES[verb]) {
    const arrow = arrowOf.get(one);
    const [bank, who, channel] = one.split(".");
    return { verb, words, client: Number(who), bank: Number(bank), channel, block: arrow && arrow[5], arrow };
  }
  const to = sentBy.has(index) && /^client (\d+)$/.exec(data.arrows[sentBy.get(index)][3]);
  return { verb, words, client: to ? Number(to[1]) : undefined, block: Number(one) };
}

function entrySentence(it) {
  switch (it.verb) {
    case "load": return `Client ${it.client} reads ${it.words[3]} from its copy of block ${it.block}.`;
    case "answer_probe": return `Client ${it.client} answers home's Probe of block ${it.block}.`;
    case "take_grant": return `Client ${it.client} takes its Grant of block ${it.block}, and acknowledges it.`;
    case "take_release_ack": return `Client ${it.client} takes the answer to its Release of block ${it.block}.`;
    case "accept": return `Home takes client ${it.client}'s Acquire of block ${it.block}, and serves it from here on.`;
    case "probe": return `Home asks client ${it.client} to give block ${it.block} up (ProbeBlock ${it.words[3]}).`;
    case "take_c": return `Home takes what client ${it.client} gave back on channel C of block ${it.block}.`;
    case "grant": return `Home sends client ${it.client} the Grant of block ${it.block}.`;
    case "take_grant_ack": return `Home takes client ${it.client}'s GrantAck of block ${it.block}: the Acquire ends.`;
    case "get": return `Home asks the memory for block ${it.block} (Get).`;
    case "serve": return `The memory answers what home asked about block ${it.block}.`;
    case "take_data": return `Home takes the memory's data of block ${it.block}.`;
    case "drop": return `Home gives up its clean copy of block ${it.block}.`;
    case "put": return `Home writes its dirty copy of block ${it.block} back to the memory (PutFullData).`;
    case "take_put_ack": return `Home takes the memory's acknowledgement for block ${it.block}.`;
    default: return undefined;
  }
}
function sentence(index) {
  const it = about(index);
  const told = isRecord ? entrySentence(it) : undefined;
  if (told) return told;
  const what = it.arrow ? it.arrow[6] + " of block " + it.block : "a message";
  switch (it.verb) {
    case "load": return `Client ${it.client} reads ${it.words[3]} byte(s) of its copy of block ${it.block}.`;
    case "store": return `Client ${it.client} writes ${it.words[3]} into its copy of block ${it.block}.`;
    case "acquire": return `Client ${it.client} asks home for a copy of block ${it.block} that it may `
      + `${it.words[3] === "NtoB" ? "read" : "write"} (AcquireBlock ${it.words[3]}).`;
    case "release": return `Client ${it.client} gives its copy of block ${it.block} up, unasked `
      + `(Release ${it.words[3]}).`;
    case "answer_probe": return `Home has asked client ${it.client} to give its copy up (${what}); the client answers.`;
    case "take_grant": return `Client ${it.client} takes the copy that home sent (${what}), and acknowledges it.`;
    case "take_release_ack": return `Client ${it.client} takes home's answer to its Release (${what}).`;
    case "accept": return `Home begins to serve what client ${it.client} asked for (${what}): a miss register opens.`;
    case "take_c": return `Home takes what client ${it.client} gave back on channel C (${what}).`;
    case "take_grant_ack": return `Home takes client ${it.client}'s GrantAck: the miss register closes.`;
    case "advance": return `The miss register of block ${it.block} does what is next.`;
    case "evict": return `Home begins to send block ${it.block} away.`;
    case "serve_memory": return `The memory serves what home asked about block ${it.block}.`;
    case "take_memory": return `Home takes the memory's answer about block ${it.block}.`;
    default: return "";
  }
}

// ---- Refusals: the rule, its places in the documents, and why it holds here

const EVENTS = ["docs/PROTOCOL.md", "Events, state and runs"];
const RULES_OF_ALL = ["docs/PROTOCOL.md", "Rules"];
const MISSES = ["docs/PROTOCOL.md", "Miss registers (own)"];
const LIMITS = ["docs/FORMAT.md", "Refusals of a step"];
const RULES = {
  NoPermission: ["A load asks for a copy at Branch or Tip, a store for a copy at Tip.", EVENTS],
  Waiting: ["After an Acquire a client sends no further Acquire on that block until the Grant, and no Release of it; "
    + "after a Release it sends no Acquire or further Release on it until the ReleaseAck.", RULES_OF_ALL],
  WrongFrom: ["An Acquire's grow and a Release's prune begin at the permission that the client's copy has.", EVENTS],
  NothingThere: ["A message is taken where one waits: here the channel is empty, or nothing of the kind passes between "
    + "home and the memory.", EVENTS],
  NotHead: ["Each channel between one client and one bank delivers in the order sent: only its first message can be "
    + "taken, by the call for its kind.", ["docs/PROTOCOL.md", "Messages"]],
  ReleasePending: ["After a Release a client sends no ProbeAck on that block until it has taken the ReleaseAck.",
    RULES_OF_ALL],
  NoRegister: ["An accepted Acquire and an eviction need a free miss register, and a block that home lacks needs a way "
    + "of its set that no register holds.", MISSES],
  BlockBusy: ["Home serves one Acquire of a block at a time: the block is an open register's own, or its victim.",
    RULES_OF_ALL, MISSES],
  NotYet: ["A miss register does the first of its eight cases that applies. Here it has to wait, or the block has no "
    + "register; a block that is to be evicted must be at home.", MISSES],
  OutOfRange: ["An event of a client or a block that is not there is not permitted; an access has 1 to 8 bytes in one "
    + "block.", EVENTS],
  WrongBank: ["A bank has the blocks whose number the bank hash leads to it.", ["docs/PROTOCOL.md", "A bank (own)"]],
  CopiesFull: ["The client's table of copies is full, and has no entry of the block. No rule of the protocol: a limit "
    + "of this cache.", LIMITS],
  LinkFull: [`${FULL} messages are on the channel that the step sends on. No rule of the protocol: a limit of this `
    + "cache.", LIMITS],
  Memory: ["The log of the bank could not grow.", LIMITS],
  ClockFull: ["The clocks stand at their end.", LIMITS],
};

// A place in the documents: a link from a page that lies among those of the repository, else its name.
const TOP = (/^(.*\/)crates\/golden\/data\/[^/]*$/.exec(location.href.split("#")[0]) || [])[1];
function placeOf([file, section]) {
  const name = `${file}, ${section.replace(" (own)", "")}`;
  const anchor = section.toLowerCase().replace(/[^a-z ]/g, "").replace(/ /g, "-");
  return TOP === undefined ? name : make("a", { href: `${TOP}${file}#${anchor}` }, name);
}

const NUMBERS = (word, count) => (count === 1 ? `only ${word} 0 is there` : `the ${word}s are 0 to ${count - 1}`);
function outOfRange(it) {
  const found = [];
  if (it.client >= g.clients) found.push(NUMBERS("client", g.clients));
  const length = it.verb === "load" ? Number(it.words[3]) : it.verb === "store" ? it.words[3].length / 2 : 0;
  if (it.block >= g.blocks) found.push(`the memory's blocks are 0 to ${g.blocks - 1}`);
  else if (length > 8) found.push(`the access has ${length} bytes`);
  else if (length && Number(it.words[2]) % g.blockBytes + length > g.blockBytes) {
    found.push(`block ${it.block} ends at ${hex((it.block + 1) * g.blockBytes - 1)}`);
  }
  return found.join(", and ");
}
const serves = (r) => (r.grow === "evict" ? `that evicts b${r.own}`
  : `that serves client ${r.client}'s ${r.grow} of b${r.own}`);
function noRegister(it, bank) {
  const open = registersOf(bank);
  if (open.length >= g.registers) {
    const count = g.registers === 1 ? "the only register" : `each of the ${g.registers} registers`;
    return `${count} of bank ${bank} is open: ${open.map((r) => `one ${serves(r)}`).join(", ")}`;
  }
  const held = open.filter((r) => r.set === setOf(it.block)).map((r) => `way ${r.way} by the register ${serves(r)}`);
  return `home lacks block ${it.block}, and each way of set ${setOf(it.block)} is held: ${held.join(", ")}`;
}
function notHead(it) {
  const takes = TAKES[it.verb];
  if (it.channel !== takes) return `the ticket names channel ${it.channel}, and ${it.verb} takes from ${takes}`;
  const [first] = lane(it.bank, it.client, it.channel);
  return `the first message on the channel is ${it.bank}.${it.client}.${it.channel}.${first.serial}, ${first.kind}`;
}
function linkFull(it, bank) {
  const register = it.verb === "advance" && registersOf(bank).find((r) => r.own === it.block);
  const [what, who] = register ? register.next.split(" ") : ["", it.client];
  const channel = SENDS[it.verb] || { probe: "B", grant: "D" }[what];
  return `${lane(bank, who, channel).length} messages are on channel ${channel} of client ${who} in bank ${bank}`;
}
// Why the step is refused here.
function hereWhy(index, name) {
  const it = about(index);
  const bank = it.bank !== undefined ? it.bank : blocks.has(it.block) ? blocks.get(it.block).bank : 0;
  const k = () => clientAt(it.client, it.block);
  const register = () => registersOf(bank).find((r) => r.own === it.block);
  switch (name) {
    case "NoPermission":
    case "WrongFrom": return `client ${it.client} has block ${it.block} at ${k().perm}`;
    case "Waiting":
    case "ReleasePending": return `client ${it.client} still waits for ${k().waits} of block ${it.block}`;
    case "NothingThere": return it.channel ? `channel ${it.channel} of client ${it.client} in bank ${bank} is empty`
      : `${homeAt(it.block).words} passes between home and the memory`;
    case "NotHead": return notHead(it);
    case "NoRegister": return noRegister(it, bank);
    case "BlockBusy": {
      const busy = register() || registersOf(bank).find((r) => r.victim === it.block);
      return `block ${it.block} is the ${register() ? "own block" : "victim"} of the register ${serves(busy)}`;
    }
    case "NotYet":
      if (it.verb === "evict") return `home does not hold block ${it.block}`;
      return register() ? "it waits: " + waitReason(register()) : `block ${it.block} is no register's own`;
    case "OutOfRange": return outOfRange(it);
    case "WrongBank": return NUMBERS("bank", g.banks);
    case "CopiesFull":
      return `client ${it.client} has ${entries[bank][it.client]} entries in bank ${bank}, of ${g.copies}`;
    case "LinkFull": return linkFull(it, bank);
    default: return "the bank has no more room";
  }
}

// What an entry of a record breaks, as the verdict has it, and why it does here, as far as the state tells.
function breach() {
  const found = /^not lawful: line \d+, entry \d+: (.*) \((.*)\), (docs\/\S+), (.*)$/.exec(data.verdict);
  if (!found) return [make("p", { id: "rule" }, data.verdict)];
  const [, rule, whose, file, section] = found;
  const why = hereBreaks(about(last), rule);
  return [make("p", { id: "rule" }, "It breaks a rule: ", make("strong", {}, rule), ` (${whose}).`),
    why && make("p", { id: "why" }, `Here ${why}.`),
    make("p", { class: "quiet", id: "places" }, "See ", placeOf([file, section]), ".")];
}
function hereBreaks(it, rule) {
  if (!blocks.has(it.block)) return outOfRange(it);
  const waiting = (on, kinds) => clientNumbers.flatMap((who) => on.flatMap((channel) => lane(0, who, channel)
    .filter((m) => m.block === it.block && kinds.test(m.kind))
    .map((m) => `client ${who}'s ${m.kind} is on channel ${channel}`))).join(", and ");
  if (/Probe of the block is unanswered/.test(rule)) return waiting(["B", "C"], /^Probe/);
  if (/Grant of the block is pending/.test(rule)) return waiting(["D", "E"], /^Grant/);
  if (/first of its channel/.test(rule)) {
    return CHANNELS.flatMap((channel) => lane(0, it.client, channel).slice(0, 1)
      .map((m) => `the first message on channel ${channel} is ${m.kind} of block ${m.block}`)).join(", and ");
  }
  if (it.client === undefined || /serves|Acquire of the block/.test(rule)) {
    const has = homeAt(it.block).has ? "has a copy" : "has no copy";
    return `home ${has}, and serves ${servedWords(blocks.get(it.block).serves)}`;
  }
  if (it.client >= g.clients) return outOfRange(it);
  const k = clientAt(it.client, it.block);
  return `client ${it.client} has block ${it.block} at ${k.perm}, waits for ${k.waits}, and home records ${k.recorded} `
    + "of it";
}
const servedWords = (place, text = textNow) => (text(place) === "-" ? "nobody" : "client " + text(place));

// ---- Miss registers

const isProbe = (block) => (m) => m.block === block && /^Probe/.test(m.kind);
function isUnanswered(bank, who, block, text) {
  return lane(bank, who, "B", text).some(isProbe(block)) || lane(bank, who, "C", text).some(isProbe(block));
}
function waitReason(register, text) {
  const bank = blocks.get(register.own).bank;
  const isProbed = (block) => clientNumbers.some((who) => isUnanswered(bank, who, block, text));
  if (register.victim !== null) {
    if (isProbed(register.victim)) return `a Probe of the victim, block ${register.victim}, is unanswered (case 2)`;
    return `the memory has not acknowledged the victim, block ${register.victim} (case 4)`;
  }
  if (!homeAt(register.own, text).has) return "the data of its Get has not come (case 5)";
  if (isProbed(register.own)) return "a Probe of its block is unanswered (case 7)";
  return "the GrantAck has not been taken (case 8)";
}
function nextWords(register, text) {
  const [what, one, two, three] = register.next.split(" ");
  switch (what) {
    case "probe": return `sends client ${one} a Probe ${three} of block ${two} `
      + `(case ${Number(two) === register.victim ? 1 : 6})`;
    case "grant": return `sends client ${one} the Grant (case 8)`;
    case "get": return "sends the memory a Get (case 5)";
    case "put": return `writes block ${one} back by PutFullData (case 3)`;
    case "drop": return `drops its clean copy of block ${one} (case 3)`;
    default: return "waits: " + waitReason(register, text);
  }
}
// The block whose clients a register has probed: the victim with which it opened, else its own. With a victim, nobody
// has its own block, so that it probes none of that block's clients.
function probedBlock(place, register) {
  let opened = register;
  for (let step = at; step >= 0; step--) {
    if (!before[step].has(place)) continue;
    const earlier = openRegisters(before[step].get(place)).find((one) => one.own === register.own);
    if (!earlier) break;
    opened = earlier;
  }
  return opened.victim === null ? opened.own : opened.victim;
}
function probedWords(place, register, text) {
  if (register.probed.length === 0) return "nobody";
  const block = probedBlock(place, register);
  const { bank } = blocks.get(block);
  return register.probed.map((who) =>
    `client ${who} of b${block}, ${isUnanswered(bank, who, block, text) ? "unanswered" : "answered"}`).join("; ");
}

// ---- Which steps the banks would permit now

// The blocks of which anything is under way or held, and the step's.
function blocksInUse() {
  const found = new Set();
  for (const it of blocks.values()) if (it.busy > 0) found.add(it.block);
  for (const place of channels.values()) for (const m of messages(state[place])) found.add(m.block);
  for (const place of registers) {
    for (const r of openRegisters(state[place])) {
      found.add(r.own);
      if (r.victim !== null) found.add(r.victim);
    }
  }
  if (at >= 0 && blocks.has(about(at).block)) found.add(about(at).block);
  return found;
}
const hasRoom = (it, who, k) => (isRecord || k.hasEntry || entries[it.bank][who] < g.copies)
  && lane(it.bank, who, "A").length < FULL;
// Whether a client may do anything about a block, but take a message.
function maySomething(who, it) {
  const k = clientAt(who, it.block);
  return k.perm !== "None" || (k.wait === "-" && hasRoom(it, who, k));
}
function clientSteps(who, it) {
  const k = clientAt(who, it.block);
  const found = [];
  const address = hex(it.block * g.blockBytes);
  if (RANK[k.perm] >= 1) found.push(["load", `load ${who} ${address} 1`]);
  if (RANK[k.perm] >= 2) found.push(["store", `store ${who} ${address} 00`]);
  if (k.wait !== "-") return found;
  if (hasRoom(it, who, k)) {
    const grows = { None: ["NtoB", "NtoT"], Branch: ["BtoT"], Tip: [] }[k.perm];
    for (const grow of grows) found.push(["acquire " + grow, `acquire ${who} ${it.block} ${grow}`]);
  }
  if (lane(it.bank, who, "C").length < FULL) {
    const prunes = { None: [], Branch: ["BtoN"], Tip: ["TtoB", "TtoN"] }[k.perm];
    for (const prune of prunes) found.push(["release " + prune, `release ${who} ${it.block} ${prune}`]);
  }
  return found;
}
// The messages of a bank that a client may take, or answer, with their blocks.
function ticketSteps(bank, who) {
  const found = [];
  const named = (channel, m) => (isRecord ? `${who} ${m.block}` : `${bank}.${who}.${channel}.${m.serial}`);
  const [probe] = lane(bank, who, "B");
  if (probe && clientAt(who, probe.block).wait !== "R" && lane(bank, who, "C").length < FULL) {
    found.push(["answer_probe", `answer_probe ${named("B", probe)}`, probe.block]);
  }
  const [answer] = lane(bank, who, "D");
  if (answer && answer.kind === "ReleaseAck") {
    found.push(["take_release_ack", `take_release_ack ${named("D", answer)}`, answer.block]);
  } else if (answer && lane(bank, who, "E").length < FULL) {
    found.push(["take_grant", `take_grant ${named("D", answer)}`, answer.block]);
  }
  return found;
}

// ---- The state beside the chart

const chosen = { block: "", client: "" };
const wantsBlock = (block) => chosen.block === "" || block === Number(chosen.block);
const wantsClient = (who) => chosen.client === "" || who === Number(chosen.client);

// A table's cell, marked where it shows other words than before the step.
function cell(words, old) {
  const isChanged = old !== undefined && old !== words;
  return make("td", { class: isChanged && "changed", title: isChanged && "before: " + (old || "nothing") },
    words, isChanged && spoken("changed"));
}
// Bytes in groups of eight, between which a line may break.
const grouped = (bytes) => (bytes.match(/[^]{1,16}/g) || []).join(" ");
const bytesCell = (bytes, old) => cell(grouped(bytes), grouped(old));
const heads = (...words) => words.map((word) => make("td", { class: "whole" }, word));

// A table of what was found. Where that is much: what the step is about, and the first of the rest.
function table(caption, columns, found, isNear, rowOf, empty) {
  if (found.length === 0) return make("div", {}, make("h3", {}, caption), make("p", { class: "quiet" }, empty));
  const rest = found.filter((one) => !isNear(one));
  const more = rest.length - ROWS;
  const shown = more > 0 ? found.filter(isNear).concat(rest.slice(0, ROWS)) : found;
  return make("div", {}, make("table", {}, make("caption", {}, caption),
    make("thead", {}, make("tr", {}, columns.map((word) => make("th", { scope: "col" }, word)))),
    make("tbody", {}, shown.map(rowOf))),
  more > 0 && make("p", { class: "more" }, make("button", { type: "button", onclick: () => byId("block").focus() },
    `${more} more: choose a block`)));
}

// The blocks that the step is about: its own, and those of which it changed a cell.
let near = new Set();
function nearBlocks() {
  const found = new Set();
  if (at < 0) return found;
  found.add(about(at).block);
  for (const place of before[at].keys()) if (blockAt[place]) found.add(blockAt[place].block);
  return found;
}
const isNear = (one) => near.has(one.block);

// Each block that is wanted, with each client that is.
function pairs(holds) {
  const found = [];
  for (const it of blocks.values()) {
    if (!wantsBlock(it.block)) continue;
    for (const who of clientNumbers) if (wantsClient(who) && holds(it, who)) found.push({ block: it.block, it, who });
  }
  return found;
}
const COPIES = ["client", "block", "copy", "clean, dirty", "bytes", "waits for", "home records"];
function clientsTable() {
  const found = pairs((it, who) => {
    const place = it.clients[who];
    return chosen.block !== "" || state[place] !== IDLE.client || textBefore(place) !== IDLE.client;
  });
  const rowOf = ({ it, who }) => {
    const [k, o] = [client(state[it.clients[who]]), client(textBefore(it.clients[who]))];
    return make("tr", { "data-client": who, "data-block": it.block }, heads(`client ${who}`, `b${it.block}`),
      cell(k.perm, o.perm), cell(k.dirty, o.dirty), bytesCell(k.bytes, o.bytes), cell(k.waits, o.waits),
      cell(k.recorded, o.recorded));
  };
  return table("Clients: copies", COPIES, found, isNear, rowOf, "No client has a copy, or waits for one.");
}
// What stands in a row of a script's page alone: the banks and the tickets.
const inScript = (...words) => (isRecord ? [] : words);
const AT_HOME = [...inScript("bank"), "block", "home's copy", "bytes", ...(isRecord ? ["serves"] : []),
  "to or from memory", "memory's bytes"];
function homeTable() {
  const isQuiet = (it) => state[it.home] === IDLE.home && textBefore(it.home) === IDLE.home
    && textBefore(it.memory) === state[it.memory] && (!isRecord || state[it.serves] === IDLE.serves);
  const found = [...blocks.values()].filter((it) => wantsBlock(it.block) && (chosen.block !== "" || !isQuiet(it)));
  const passes = (h) => h.words + (h.data && " " + grouped(h.data));
  const rowOf = (it) => {
    const [h, o] = [home(state[it.home]), home(textBefore(it.home))];
    return make("tr", { "data-home": it.block }, heads(...inScript(String(it.bank)), `b${it.block}`),
      cell(h.dirty, o.dirty), bytesCell(h.bytes, o.bytes),
      isRecord && cell(servedWords(it.serves), servedWords(it.serves, textBefore)), cell(passes(h), passes(o)),
      bytesCell(state[it.memory], textBefore(it.memory)));
  };
  return table("Home and the memory", AT_HOME, found, isNear, rowOf,
    "Home has no copy, and nothing passes to the memory.");
}
// The messages of a channel: those that the step took, and those that wait after it.
function onChannel(place) {
  const [now, old] = [messages(state[place]), messages(textBefore(place))];
  const isIn = (list, m) => list.some((one) => one.serial === m.serial);
  return [...old.filter((m) => !isIn(now, m)).map((m) => ({ m, what: "taken" })),
    ...now.map((m) => ({ m, what: isIn(old, m) ? "" : "sent" }))];
}
function messageRow({ bank, who, channel, m, what, ticket }) {
  const isTaken = what === "taken";
  const told = isTaken ? [" ", news(`taken in this ${WORD}`)] : what && spoken(`sent in this ${WORD}`);
  const other = isRecord ? "home" : "bank " + bank;
  const way = "ACE".includes(channel) ? `client ${who} to ${other}` : `${other} to client ${who}`;
  return make("tr", { [isTaken ? "data-taken" : "data-message"]: ticket,
    class: what && (isTaken ? "changed gone" : "changed") }, heads(channel), make("td", {}, way),
  heads(...inScript(ticket)),
  make("td", {}, `${m.kind} b${m.block}`, told), make("td", {}, grouped(m.bytes)));
}
function flightTable() {
  const found = [];
  for (const [name, place] of channels) {
    const [bank, who, channel] = name.split(".");
    if (!wantsClient(Number(who))) continue;
    for (const { m, what } of onChannel(place)) {
      if (wantsBlock(m.block)) found.push({ bank, who, channel, m, what, ticket: `${name}.${m.serial}` });
    }
  }
  return table("Messages in flight", ["channel", "from, to", ...inScript("ticket"), "message", "bytes"], found,
    (one) => one.what !== "" || near.has(one.m.block), messageRow, "No message is in flight.");
}
// What a register shows: its words before the step are those of the texts before it.
function registerWords(place, r, text) {
  return [r.grow === "evict" ? "eviction" : `client ${r.client} ${r.grow}`, r.victim === null ? "none" : `b${r.victim}`,
    `${r.way} of set ${r.set}`, probedWords(place, r, text), nextWords(r, text)];
}
function registerRow({ bank, place, r, was, isClosed }) {
  const own = heads(String(bank), `b${r.own}`);
  if (isClosed) {
    return make("tr", { "data-closed": r.own, class: "changed gone" }, own,
      make("td", { colspan: 5 }, news("closed in this step")));
  }
  const words = registerWords(place, r);
  const old = was ? registerWords(place, was, textBefore) : [];
  const cells = words.map((word, column) => cell(word, old[column]));
  if (!was) cells[cells.length - 1].append(spoken("opened in this step"));
  return make("tr", { "data-register": r.own, class: !was && "changed" }, own, cells);
}
function registersTable() {
  const found = [];
  registers.forEach((place, bank) => {
    const [now, old] = [openRegisters(state[place]), openRegisters(textBefore(place))];
    const add = (r, was, isClosed) => {
      if (wantsBlock(r.own) || wantsBlock(r.victim)) found.push({ block: r.own, bank, place, r, was, isClosed });
    };
    for (const r of now) add(r, old.find((one) => one.own === r.own), false);
    for (const r of old) if (!now.some((one) => one.own === r.own)) add(r, r, true);
  });
  return table("Miss registers", ["bank", "block", "serves", "victim", "way", "probed", "what it does next"], found,
    (one) => isNear(one) || one.isClosed || one.was !== one.r, registerRow, "No register is open.");
}
function waysTable() {
  const its = chosen.block === "" ? undefined : blocks.get(Number(chosen.block));
  const isIts = (it) => !its || (its.bank === it.bank && setOf(its.block) === it.set);
  const found = sets.filter((it) => isIts(it) && /\d/.test(state[it.place] + textBefore(it.place)));
  const words = (text) => split(text, ",")
    .map((block, way) => `way ${way}: ${block === "-" ? "free" : "b" + block}`).join(", ");
  const rowOf = (it) => make("tr", { "data-set": `${it.bank}.${it.set}` }, heads(String(it.bank), String(it.set)),
    cell(words(state[it.place]), words(textBefore(it.place))));
  return table("Ways", ["bank", "set", "what lies in its ways"], found,
    (it) => textBefore(it.place) !== state[it.place], rowOf, "Every way is free.");
}
function whyNoStep(inUse) {
  if (inUse.size === 0) return "No block is in use: each client may acquire any block.";
  if (chosen.block !== "" || chosen.client !== "") return "None of the block or client that is chosen.";
  return "None of a block in use: only home or the memory can go on there.";
}
function permittedTable() {
  const inUse = chosen.block === "" ? blocksInUse() : new Set([Number(chosen.block)]);
  const tickets = Array.from({ length: g.banks }, (_, bank) => clientNumbers.map((who) => ticketSteps(bank, who)));
  const ofBlock = (it, who) => tickets[it.bank][who].filter((one) => one[2] === it.block);
  const found = pairs((it, who) => inUse.has(it.block) && (maySomething(who, it) || ofBlock(it, who).length > 0));
  return table("Client steps that are permitted now", ["client", "block", "steps"], found, isNear, ({ it, who }) => {
    const steps = clientSteps(who, it).concat(ofBlock(it, who));
    return make("tr", {}, heads(`client ${who}`, `b${it.block}`), make("td", {}, steps.map(([word, step], index) =>
      [index > 0 && ", ", make("code", { "data-step": step, title: step }, word)])));
  }, whyNoStep(inUse));
}

// The first later step of the same words that is not refused.
function laterSuccess(index) {
  const later = data.rows.findIndex((row, place) =>
    place > index && row[0] === data.rows[index][0] && !/^refused/.test(row[1]));
  const link = make("a", { href: `#step=${later}` }, `step ${later}`);
  return later >= 0 && make("p", {}, "The same succeeds in ", link, ".");
}
function refusedBox(number, name) {
  const [rule, ...places] = RULES[name];
  return make("div", { class: "refused", id: "refusal" },
    make("p", {}, make("strong", {}, `Refused: ${number} ${name}`), ". Nothing changed; it may be asked again."),
    make("p", { id: "rule" }, rule), make("p", { id: "why" }, `Here ${hereWhy(at, name)}.`), laterSuccess(at),
    make("p", { class: "quiet", id: "places" }, "See ",
      places.map((one, index) => [index > 0 && ", and ", placeOf(one)]), "."));
}
// An entry of a record: what it sent, and at the end the verdict.
function entryBox(mark) {
  const sent = sentBy.has(at) && data.arrows[sentBy.get(at)];
  const heading = `Line ${numberOf(at)}, entry ${data.first + at + 1}: `;
  const message = sent && [sent[6], grouped(sent[7])].join(" ").trim();
  return [make("h2", {}, heading, make("code", {}, rowWords(at, Infinity))), make("p", {}, sentence(at)),
    sent && make("p", {}, "Sent: ", make("code", { id: "answer" }, message), ` to ${sent[3]}.`),
    mark === "not lawful" && make("div", { class: "refused", id: "refusal" }, make("p", {},
      make("strong", {}, "Not lawful"), ": this entry may not come here. The state is that before it."), breach()),
    at === last && make("p", { id: "verdict" }, data.verdict)];
}
function stepBox() {
  if (at < 0) {
    const isReset = !isRecord || data.first === 0;
    return [make("h2", {}, isReset ? `Before the first ${WORD}` : `After entry ${data.first}`),
      make("p", {}, isReset ? "Nobody but the memory holds anything (reset)."
        : `The first ${data.first} entries of the record are lawful, and are not shown.`)];
  }
  const [step, answer, , mark] = data.rows[at];
  if (isRecord) return entryBox(mark);
  const refused = /^refused (\d+) (\w+)$/.exec(mark);
  return [make("h2", {}, `Step ${at}: `, make("code", {}, step)), make("p", {}, sentence(at)),
    make("p", {}, "Answer: ", make("code", { id: "answer" }, answer.replace(/[0-9a-f]{17,}/g, grouped))),
    refused && refusedBox(refused[1], refused[2])];
}

// Brings what changed into view: of what does not fit the first.
function reveal() {
  const tables = byId("tables");
  const marked = [...tables.querySelectorAll(".changed")].map((one) => one.getBoundingClientRect());
  if (marked.length === 0) return;
  const box = tables.getBoundingClientRect();
  const below = marked[marked.length - 1].bottom - box.bottom;
  const move = Math.max(0, below + 8);
  tables.scrollTop += Math.min(move, marked[0].top - box.top - 8);
}
function drawState() {
  near = nearBlocks();
  byId("about").replaceChildren(...stepBox().filter((one) => one));
  byId("tables").replaceChildren(clientsTable(), homeTable(), flightTable(),
    ...(isRecord ? [] : [registersTable(), waysTable()]), permittedTable());
}

// ---- The chart: the rows' names at the left and the lifelines' names above stay in sight

const NAMES = 214, FIRST = 30, GAP = 146, HEAD = 34, ROW = 28, ASIDE = 8, REACH = 6, BESIDE = 14;
const lifelines = clientNumbers.map((who) => "client " + who)
  .concat(Array.from({ length: g.banks }, (_, bank) => "home " + bank), "memory");
const lifelineAt = new Map(lifelines.map((name, place) => [name, FIRST + GAP * place]));
const x = (name) => lifelineAt.get(name);
const width = x("memory") + 70;
const rowsWanted = () => data.rows.map((_, index) => index).filter((index) => {
  const it = about(index);
  const blockIs = chosen.block === "" || it.block === Number(chosen.block);
  return blockIs && (chosen.client === "" || it.client === undefined || it.client === Number(chosen.client));
});
let wanted = rowsWanted();
let shown = [];

// How many of some rows come before a row.
function placeOfRow(rows, row) {
  let [low, high] = [0, rows.length];
  while (low < high) {
    const middle = (low + high) >> 1;
    if (rows[middle] < row) low = middle + 1;
    else high = middle;
  }
  return low;
}
const isShown = (row) => shown[placeOfRow(shown, row)] === row;
// The middle of a row, or of the place where it would stand.
const y = (row) => ROW * placeOfRow(shown, row) + ROW / 2;
function rowLabel(index) {
  const [words, answer, , mark] = data.rows[index];
  return `${numberOf(index)} ${[words, mark || answer].filter((one) => one).join(", ")}`;
}
// The words of a row, without the message that an entry shows, as far as there is room.
const SHORT = ["load", "store", "acquire", "release", "probe"];
function rowWords(index, room = 25) {
  const { verb, words } = about(index);
  const text = isRecord ? words.slice(0, SHORT.includes(verb) ? 4 : OF_BLOCK.includes(verb) ? 2 : 3).join(" ")
    : data.rows[index][0];
  return text.length > room ? text.slice(0, room - 1) + "…" : text;
}
const stripe = (place, index, size) => svg("rect", { class: place % 2 ? "plain" : "stripe", "data-row": index, x: 1,
  y: ROW * place, width: size - 2, height: ROW });
function drawName(index, place) {
  const top = y(index) + 4;
  return svg("g", { class: "row", id: "row-" + index, role: "option", "aria-label": rowLabel(index),
    "aria-selected": "false", "data-row": index }, svg("title", {}, data.rows[index][0]), stripe(place, index, NAMES),
  svg("text", { class: "quiet end", x: 38, y: top }, String(numberOf(index))),
  svg("text", { x: 46, y: top }, rowWords(index)));
}
function shapeOf(word, left, top) {
  switch (word) {
    case "": return svg("circle", { class: "dot", cx: left, cy: top, r: 2 });
    case "load":
    case "store": return svg("circle", { class: word, cx: left, cy: top, r: 4 });
    case "not":
    case "refused": return svg("path", { class: "cross", d: `M${left} ${top}m-4 -4l8 8m0 -8l-8 8` });
    default: return svg("path", { class: "dot", d: `M${left} ${top}m-4 -4h8v8h-8z` });
  }
}
function drawMark(index) {
  const [, , name, mark] = data.rows[index];
  const [left, top] = [x(name), y(index)];
  const word = mark.split(" ")[0];
  const isRight = name === "memory";
  return svg("g", { id: "mark-" + index }, shapeOf(word, left, top),
    mark && svg("text", { class: "halo" + (["refused", "not"].includes(word) ? " bad" : "") + (isRight ? " end" : ""),
      x: left + (isRight ? -BESIDE : BESIDE), y: top + 4 }, mark.replace("refused ", "")));
}
function drawArrow(index) {
  const [sent, taken, from, to, channel, block, kind, bytes] = data.arrows[index];
  const side = x(from) < x(to) ? 1 : -1;
  const isOpen = taken < 0;
  const [left, right] = [x(from) + side * REACH, x(to) - side * REACH * (isOpen ? 2 : 1)];
  const start = sent < shown[0] ? 0 : y(sent) + ASIDE;
  const isBelow = taken > shown[shown.length - 1];
  const finish = isOpen ? start + ROW / 2 : isBelow ? ROW * shown.length : y(taken) - ASIDE;
  const line = `M${left} ${start}L${right} ${finish}`;
  const words = `${kind} b${block}` + (bytes && " " + (bytes.length > 8 ? bytes.slice(0, 8) + "…" : bytes));
  const ends = `sent in ${WORD} ${numberOf(sent)}, ` + (isOpen ? "never taken" : `taken in ${WORD} ${numberOf(taken)}`);
  return svg("g", { class: "message", "data-arrow": index, onclick: () => go(at === sent && !isOpen ? taken : sent) },
    svg("title", {}, `${kind} b${block} ${bytes}: ${ends}`), svg("path", { class: "hit", d: line }),
    svg("path", { class: `arrow ${channel}` + (isOpen ? " open" : ""), d: line,
      "marker-end": !isOpen && `url(#head${channel})` }),
    isOpen && svg("circle", { class: "arrow " + channel, cx: x(to) - side * REACH, cy: finish, r: 3 }),
    sent >= shown[0] && svg("text", { class: `halo t${channel}` + (side < 0 ? " end" : ""),
      x: x(from) + side * BESIDE, y: y(sent) + 4 }, words));
}
// The messages that a row of the page sent or took.
function arrowsShown() {
  const found = new Set();
  for (const row of shown) for (const by of [sentBy, takenBy]) if (by.has(row)) found.add(by.get(row));
  return [...found].sort((one, two) => one - two);
}

// From which row to which each client has a permission to a block, as its cell tells.
function bandsOf(block) {
  const found = [];
  const first = (who) => client(data.start[blocks.get(block).clients[who]]).perm;
  const open = clientNumbers.map((who) => ({ who, perm: first(who), since: 0 }));
  const change = (who, perm, row) => {
    if (perm === open[who].perm) return;
    found.push({ ...open[who], until: row });
    open[who] = { who, perm, since: row };
  };
  data.changes.forEach((changes, row) => {
    for (let i = 0; i < changes.length; i += 2) {
      const it = blockAt[changes[i]];
      const who = clientOf[changes[i]];
      if (it && it.block === block && who !== undefined) change(who, client(changes[i + 1]).perm, row);
    }
  });
  for (const band of open) found.push({ ...band, until: last + 1 });
  return found.filter((band) => band.perm !== "None");
}
function drawBands() {
  const block = chosen.block === "" ? (data.arrows.length ? data.arrows[0][5] : undefined) : Number(chosen.block);
  if (!blocks.has(block)) return [];
  const edge = (row) => Math.max(0, Math.min(ROW * shown.length, y(row)));
  return bandsOf(block).filter(({ since, until }) => edge(until) > edge(since)).map(({ who, perm, since, until }) =>
    svg("rect", { class: perm, "data-band": who, x: x("client " + who) - 5, y: edge(since), width: 10,
      height: edge(until) - edge(since) }, svg("title", {}, `client ${who} has block ${block} at ${perm}`)));
}
const marker = (channel) => svg("marker", { id: "head" + channel, viewBox: "0 0 8 8", refX: 8, refY: 4, markerWidth: 7,
  markerHeight: 7, markerUnits: "userSpaceOnUse", orient: "auto" },
svg("path", { class: "t" + channel, style: `fill: var(--${channel})`, d: "M0 0L8 4L0 8z" }));
// One of the four parts of the chart. What the picture shows is told by the names of its rows.
function sheet(name, wide, high, ...children) {
  const role = name === "names" ? { role: "presentation" } : { "aria-hidden": "true" };
  return svg("svg", { class: name, width: wide, height: high, viewBox: `0 0 ${wide} ${high}`, ...role }, ...children);
}
let page = -1;
function drawChart() {
  shown = wanted.slice(page * PAGE, (page + 1) * PAGE);
  const height = ROW * shown.length;
  const headings = lifelines.map((name) => svg("text", { class: "head", x: x(name), y: HEAD - 12 }, name));
  byId("rows").replaceChildren(make("div", { class: "sheets", role: "presentation" }, sheet("corner", NAMES, HEAD),
    sheet("heads", width, HEAD, headings), sheet("names", NAMES, height, shown.map(drawName)),
    sheet("lines", width, height, svg("defs", {}, CHANNELS.map(marker)),
      shown.map((index, place) => stripe(place, index, width)),
      lifelines.map((name) => svg("path", { class: "life", d: `M${x(name)} 0V${height}` })), drawBands(),
      arrowsShown().map(drawArrow), shown.map(drawMark))));
  const pages = Math.max(1, Math.ceil(wanted.length / PAGE));
  byId("pages").hidden = pages < 2;
  byId("pageName").textContent = `page ${page + 1} of ${pages}`;
}
function markRow() {
  for (const row of document.querySelectorAll(".row[aria-selected=true]")) row.setAttribute("aria-selected", "false");
  for (const one of document.querySelectorAll("rect.here")) one.classList.remove("here");
  for (const one of document.querySelectorAll(".message")) {
    const [sent, taken] = data.arrows[Number(one.dataset.arrow)];
    one.classList.toggle("flies", sent <= at && (taken < 0 || at < taken));
  }
  const row = byId("row-" + at);
  const rows = byId("rows");
  if (!row) return rows.removeAttribute("aria-activedescendant");
  row.setAttribute("aria-selected", "true");
  rows.setAttribute("aria-activedescendant", row.id);
  for (const one of document.querySelectorAll(`rect[data-row="${at}"]`)) one.classList.add("here");
  // The row, and the lifeline on which it acts.
  return byId("mark-" + at).scrollIntoView({ block: "nearest", inline: "nearest" });
}

// ---- Going to a step

function go(step) {
  walk(Math.max(-1, Math.min(last, step)));
  const place = Math.min(placeOfRow(wanted, at), wanted.length - 1);
  const wants = Math.max(0, Math.floor(place / PAGE));
  if (wants !== page) {
    page = wants;
    drawChart();
  }
  drawState();
  markRow();
  reveal();
  byId("step").value = at < 0 ? "" : String(numberOf(at));
  byId("back").disabled = byId("first").disabled = at < 0;
  byId("next").disabled = byId("end").disabled = at >= (wanted.length ? wanted[wanted.length - 1] : -1);
  byId("told").textContent = at < 0 ? `Before the first ${WORD}` : `${NAME} ${rowLabel(at)}. ${changedWords()}`;
  history.replaceState(null, "", `#${WORD}=${at < 0 ? "start" : numberOf(at)}`);
}
// Goes on by some of the steps that are wanted, or back; at an end it stays among them.
function move(by) {
  const here = placeOfRow(wanted, at + (by > 0 ? 1 : 0));
  const place = by > 0 ? Math.min(here + by - 1, wanted.length - 1) : here + by;
  if (wanted.length > 0) go(place < 0 ? -1 : Math.max(wanted[place], by > 0 ? at : -1));
}
const toEnd = () => wanted.length > 0 && go(wanted[wanted.length - 1]);
function choose(what, value) {
  chosen[what] = value;
  wanted = rowsWanted();
  page = -1;
  go(at);
}
// A block's number was typed: one that the page has not is not chosen.
function chooseTyped(field) {
  const isThere = field.value === "" || blocks.has(Number(field.value));
  field.setCustomValidity(isThere ? "" : `No step names block ${field.value}.`);
  if (isThere) choose("block", field.value);
  else field.reportValidity();
}
function stepAsked() {
  const asked = /(?:step|line)=(\d+)/.exec(location.hash);
  return asked ? indexOf(Number(asked[1])) : -1;
}
const KEYS = { ArrowRight: () => move(1), ArrowDown: () => move(1), ArrowLeft: () => move(-1), ArrowUp: () => move(-1),
  Home: () => go(-1), End: toEnd, PageDown: () => move(20), PageUp: () => move(-20) };

// What a reader who is new to the protocol needs.
const READING = [
  isRecord ? "A row is an entry of the record, with the number of its line: click it, or use the arrow keys. The state "
    + "beside it is that after the entry, as tlcheck judges it."
    : "A row is a step: click it, or use the arrow keys. The state beside it is that after the step.",
  "An arrow is a message, from the row that sent it to the row that took it; thick while it is in flight, dashed if "
    + "never taken.",
  "Home is the cache that all clients share. A client asks it for a copy of a block (Acquire, channel A), home gives "
    + "it (Grant, D), and the client acknowledges that (GrantAck, E).",
  "Where another client's copy is in the way, home asks for it (Probe, B), and that client gives it back (ProbeAck, "
    + "C). A client may also give a copy back unasked (Release, C); home answers that (ReleaseAck, D). Home asks the "
    + "memory by Get and PutFullData.",
  "A copy of a block is at None, Branch (may be read) or Tip (may be written). A band on a client is its copy of the "
    + "block that is chosen, or of the first message's.",
  "Marks: a filled circle is a store, an open one a load, a cross what is refused, a square a drop or an eviction. b0 "
    + "is block 0" + (isRecord ? "." : "; the ticket 0.1.C.3 is bank 0, client 1, channel C, its message 3."),
];

// A control's name begins with the words that it shows, and goes on with what they leave out.
function button(id, shows, more, onclick) {
  const name = `${shows.replace(/[◀▶]/g, "").trim()}: ${more}`;
  return make("button", { id, type: "button", title: more, "aria-label": name, onclick }, shows);
}
function picker(id, values, word) {
  return make("label", {}, id + " ", make("select", { id, onchange: (event) => choose(id, event.target.value) },
    make("option", { value: "" }, "all"), values.map((value) => make("option", { value }, word + value))));
}
function blockField() {
  const numbers = [...blocks.keys()];
  if (numbers.length <= LISTED) return picker("block", numbers, "b");
  return make("label", {}, "block ", make("input", { id: "block", type: "number", min: 0, placeholder: "all",
    onchange: (event) => chooseTyped(event.target) }));
}
// Enter leaves a field for the chart, so that the arrow keys go on from there.
function leave(event) {
  event.preventDefault();
  event.target.dispatchEvent(new Event("change"));
  if (event.target.checkValidity()) byId("rows").focus({ preventScroll: true });
}
function keyDown(event) {
  const isField = ["INPUT", "SELECT"].includes(event.target.tagName);
  if (event.key === "Enter" && event.target.tagName === "INPUT") return leave(event);
  // Beside the chart these keys scroll.
  const scrolls = event.target.closest("#state") && !["ArrowLeft", "ArrowRight"].includes(event.key);
  if (isField || scrolls || event.ctrlKey || event.altKey || event.metaKey || !KEYS[event.key]) return undefined;
  event.preventDefault();
  return KEYS[event.key]();
}
function bar() {
  const turn = (by) => () => go(wanted[(page + by) * PAGE] ?? at);
  const most = last < 0 ? 0 : numberOf(last);
  return make("div", { class: "bar", role: "group", "aria-label": "Steps" },
    button("first", "start", `before the first ${WORD} (Home)`, () => go(-1)),
    button("back", "◀ back", `one ${WORD} (arrow left)`, () => move(-1)),
    make("label", {}, WORD + " ", make("input", { id: "step", type: "number", min: 0, max: most,
      onchange: (event) => go(event.target.value === "" ? -1 : indexOf(Number(event.target.value))) }), ` of ${most}`),
    button("next", "next ▶", `one ${WORD} (arrow right)`, () => move(1)),
    button("end", "end", `the last ${WORD} (End)`, toEnd), blockField(), picker("client", clientNumbers, ""),
    make("span", { id: "pages", class: "bar" }, button("pageBack", "◀ rows", "the page before", turn(-1)),
      make("span", { id: "pageName" }), button("pageNext", "rows ▶", "the next page", turn(1))));
}
function build() {
  const items = READING.map((words) => make("li", {}, words));
  document.body.append(
    make("header", {}, make("h1", {}, data.title), bar(),
      make("p", { id: "told", class: "sr", "aria-live": "polite" })),
    make("main", {}, make("section", { id: "chart", "aria-label": "Sequence chart" },
      make("details", {}, make("summary", {}, "How to read this page"), make("ul", {}, items)),
      make("div", { id: "rows", role: "listbox", tabindex: 0, "aria-label": "Steps: arrow keys go forward and back" })),
    make("section", { id: "state", "aria-label": "State after the step" }, make("div", { id: "about" }),
      make("div", { id: "tables", tabindex: 0, role: "group", "aria-label": "What each part shows after the step" }))));
  byId("rows").addEventListener("click", (event) => {
    const row = event.target.closest("[data-row]");
    if (row) go(Number(row.dataset.row));
  });
  const header = document.querySelector("header");
  const fit = () => document.documentElement.style.setProperty("--top", header.offsetHeight + "px");
  addEventListener("resize", fit);
  addEventListener("hashchange", () => go(stepAsked()));
  document.addEventListener("keydown", keyDown);
  fit();
  go(stepAsked());
}
build();
})();
