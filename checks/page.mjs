// Checks a page of `cellctl show --html` in a headless browser.
// Usage: node checks/page.mjs PAGE PICTURES     checks/page.sh calls it.
import { readFileSync, writeFileSync } from "node:fs";
import { pathToFileURL } from "node:url";
import { ask, check, click, finish, key, resize, sleep, tell } from "./browser.mjs";

const [page, pictures] = process.argv.slice(2);
const address = pathToFileURL(page).href;
const text = readFileSync(page, "utf8");
const journal = JSON.parse(text.split('<script type="application/json" id="journal">')[1].split("</script>")[0]);
const { machines, stations, parts, movers, poses, ways, zones, geometry, first: begin, entries, waits, refused } = journal;
// The row after each number of entries, from that of the first one that is shown on.
const rows = Array(begin).concat(journal.rows);
// A step more where a record is refused or can't be read.
const good = rows.length - 1;
if (refused !== null) rows.push([...rows[good].slice(0, 11), ...refused.slice(3)]);
const last = rows.length - 1;
// The time at which each entry ends, where the page has times.
const ends = /<metadata>([^<]*)</.exec(text.split('class="chart"')[1] ?? "")?.[1].trim().split(/\s+/).map(Number) ?? [];
// What each machine waits for. In the data 0 stands where that is as in the state before.
const waiting = Array(begin);
for (let i = begin; i <= last; i += 1)
  waiting.push((waits[i - begin] ?? [0, 0, 0, 0, 0, 0]).map((cell, m) => (cell === 0 ? waiting[i - 1]?.[m] ?? [] : cell)));
// A held zone is told with its holder.
const holderTold = (part, i) => (!part.startsWith("zone-") || rows[i][4][part.slice(5)] === "-" ? ""
  : ` by the ${machines[rows[i][4].charCodeAt(part.slice(5)) - 97]}`.replace("the press", "press"));
const waitsTold = (i) => waiting[i].filter((cell) => cell.length > 0)
  .map(([wants, why, part]) => `next is "${wants}", but ${why.split(": ").slice(1).join(": ")}${holderTold(part, i)}`);
const shown = process.env.ENTRY ?? Math.round((begin + last) / 2);
// A step of a share of those that are shown.
const entryAt = (share) => begin + Math.round((last - begin) * share);
const machineOfAxis = movers.map((name) => machines.indexOf(name));

const open = async (hash) => {
  await tell("Page.navigate", { url: "about:blank" });
  const start = performance.now();
  await tell("Page.navigate", { url: address + hash });
  for (let i = 0; i < 600 && !(await ask("document.documentElement?.classList.contains('ready') === true")); i += 1) await sleep(10);
  await ask("new Promise((drawn) => requestAnimationFrame(() => requestAnimationFrame(drawn)))");
  return Math.round(performance.now() - start);
};
const middle = (id) => ask(`(() => { const part = document.querySelector(${JSON.stringify(id)}); part.scrollIntoView({ block: "nearest" });
  const box = part.getBoundingClientRect(); return { x: box.left + box.width / 2, y: box.top + box.height / 2 }; })()`);
const press = async (id) => { const { x, y } = await middle(id); await click(x, y); };
const entry = () => ask("Number(document.getElementById('number').value)");
// The address tells the entry once the page rests there.
const rest = () => sleep(150);
const goToAddress = async (i) => {
  await rest();
  await ask(`location.hash = "#entry=${i}"`);
  await ask("new Promise((done) => setTimeout(done, 0))");
};
const picture = async (name) => {
  await ask("window.scrollTo(0, 0)");
  const { data } = await tell("Page.captureScreenshot", { format: "png" });
  writeFileSync(`${pictures}/${name}.png`, Buffer.from(data, "base64"));
};
const media = (features, kind = "") => tell("Emulation.setEmulatedMedia", { media: kind, features: Object.entries(features).map(([name, value]) => ({ name, value })) });
// Goes to an entry at once, in the page.
const slide = (i) => `(() => { const slider = document.getElementById("slider"); slider.value = ${i}; slider.dispatchEvent(new Event("input")); })();`;

// What is drawn, read from the page as it stands.
const drawn = () => ask(`(() => {
  const node = (id) => document.getElementById(id);
  const words = (id) => node(id).textContent;
  const shown = (part) => getComputedStyle(part).visibility === "visible";
  const each = (count, read) => Array.from({ length: count }, (_, i) => read(i));
  return {
    plates: each(9, (s) => (shown(node("plate-" + s)) ? node("plate-" + s).lastChild.textContent : "")),
    forged: each(9, (s) => node("plate-" + s).classList.contains("forged")),
    axes: each(9, (a) => (words("axis-" + a) + " " + (node("going-" + a)?.textContent ?? "")).trim()),
    holders: each(5, (z) => words("holder-" + z)),
    held: each(5, (z) => node("zone-" + z).classList.contains("held")),
    signs: each(6, (m) => words("sign-" + m)),
    stopped: each(6, (m) => words("stop-" + m)),
    failed: each(6, (m) => node("machine-" + m).classList.contains("failed")),
    lamps: each(2, (b) => words("lamp-word-" + b)),
    lit: each(2, (b) => ["red", "green"].filter((colour) => node("lamp-" + b).querySelector(".light").classList.contains(colour))),
    aims: ["flow-0b", "flow-0c", "aim-1", "pointer-aim", "aim-6", "aim-7", "flow-8b"].filter((id) => shown(node(id))),
    arms: [0, 1].filter((arm) => shown(node("arm-aim-" + arm))),
    heights: [1, 6, 7].map((axis) => Number(node("bead-" + axis).getAttribute("cy"))),
    counts: ["admitted-count", "forged-count", "delivered-count", "quarantine-count", "expected-plate"].map(words),
    sentence: words("sentence"), place: words("count"), why: words("why"),
    waits: [...node("waits-list").children].filter((line) => !line.hidden).map((line) => line.textContent),
    nobody: !node("waits-none").hidden,
    named: [...document.querySelectorAll("#cell .in-the-way")].map((part) => part.id), totals: words("fact-totals"), described: words("fact-plates"),
    moving: words("fact-moving") === "none",
    slider: node("slider").value, number: node("number").value, hash: location.hash,
  };
})()`);

// What a row of the data says.
const letterOf = (names, letter) => names[letter.charCodeAt(0) - 97];
const wanted = (i) => {
  const [plates, forged, at, going, holders, failedOnes, asked, lamps, expected, quarantine, totals, , record, sentence] = rows[i];
  const goes = (a, letter) => going[a] === letter;
  const heightOf = { 1: { d: geometry.lift[0], e: geometry.lift[1] } };
  [6, 7].forEach((axis) => { const own = geometry["press" + (axis - 5)]; heightOf[axis] = { p: own[0], q: own[1], r: own[2] }; });
  const inOrder = [["flow-0b", goes(0, "b")], ["flow-0c", goes(0, "c")], ["aim-1", !goes(1, "-")], ["pointer-aim", !goes(2, "-")],
    ["aim-6", !goes(6, "-")], ["aim-7", !goes(7, "-")], ["flow-8b", goes(8, "b")]];
  return {
    plates: plates.map((plate, s) => (plate === 0 ? "" : plate + (forged[s] === "1" ? "*" : ""))),
    forged: [...forged].map((flag) => flag === "1"),
    axes: parts.map((part, a) => part.replace("the ", "") + letterOf(poses, at[a]) + (going[a] === "-" ? "" : " → " + letterOf(ways, going[a]))),
    holders: [...holders].map((letter) => (letter === "-" ? "free" : letterOf(machines, letter))),
    held: [...holders].map((letter) => letter !== "-"),
    signs: machines.map((_, m) => (failedOnes[m] === "1" ? "FAILED" : asked[m] === "1" ? "stop asked" : "")),
    stopped: machines.map((_, m) => (failedOnes[m] === "1" && [...going].some((letter, a) => letter !== "-" && machineOfAxis[a] === m) ? "stopped on the way" : "")),
    failed: [...failedOnes].map((flag) => flag === "1"),
    lamps: [...lamps].map((letter) => (letter === "g" ? "green" : "red")),
    lit: [...lamps].map((letter) => [letter === "g" ? "green" : "red"]),
    aims: inOrder.filter(([, is]) => is).map(([id]) => id),
    arms: [0, 1].filter((arm) => !goes(3, "-") || !goes(4 + arm, "-")),
    heights: [1, 6, 7].map((axis) => heightOf[axis][at[axis]][0][1]),
    counts: [String(totals[1]), String(totals[2]), String(totals[4]), String(quarantine), expected === 0 ? "none" : "plate " + expected],
    sentence: i === 0 ? "The opening: nothing is booked." : i <= good ? sentence : sentence === "" ? "Here the journal stops." : "Refused: " + sentence,
    place: (i <= good ? `Entry ${i} of ${entries}` : `Record ${refused[0]}; the good entries end at ${good}`) + (record === "" ? "" : ` · ${record}`)
      + (ends.length > 0 && i > begin && i <= good ? ` · ends at ${ends[i - 1 - begin]}` : ""),
    why: i <= good ? "" : refused[1],
    waits: waitsTold(i), nobody: waitsTold(i).length === 0,
    named: i <= good || refused[2] === "" ? []
      : refused[2].startsWith("axis-") ? ["machine-" + machineOfAxis[refused[2].slice(5)], refused[2]].sort((a) => (a.startsWith("machine") ? -1 : 1)) : [refused[2]],
    totals: `${totals[0]} entries; ${totals[1]} admitted, ${totals[2]} forged, ${totals[3]} quarantined, ${totals[4]} delivered, ${totals[5]} laid back`,
    described: stations.map((name, s) => [plates[s], `${plates[s]}${forged[s] === "1" ? " (forged)" : ""} at ${name}`])
      .filter(([plate]) => plate !== 0).map(([, words]) => words).join(", ") || "none",
    moving: ![...going].some((letter, a) => letter !== "-" && failedOnes[machineOfAxis[a]] !== "1"),
    slider: String(i), number: String(i), hash: "#entry=" + i,
  };
};
const compare = async (i) => {
  await rest();
  const found = await drawn();
  Object.entries(wanted(i)).forEach(([part, value]) => check(`entry ${i}, ${part}`, found[part], value));
};

const checkEntries = async () => {
  const chosen = new Set([begin, Math.min(last, begin + 1), last, ...Array.from({ length: 60 }, (_, k) => entryAt(k / 60))]);
  await media({ "prefers-reduced-motion": "reduce" });
  for (const i of chosen) {
    await goToAddress(i);
    await compare(i);
  }
  await media({});
  console.log(`${chosen.size} entries of ${last}: what is drawn is what the data say`);
};
// The picture and the page have the same places: an arm that is out ends on the plate's place of the station that it faces, and
// what an entry changes is marked.
const checkPlaces = async () => {
  await media({ "prefers-reduced-motion": "reduce" });
  await open("#entry=0");
  const found = await ask(`(async () => {
    const faced = [{ h: 2, i: 5, k: 6 }, { j: 5, l: 6, m: 7 }];
    const centre = (node) => { const box = node.getBoundingClientRect(); return [box.left + box.width / 2, box.top + box.height / 2]; };
    const journal = JSON.parse(document.getElementById("journal").textContent);
    const rows = Array(journal.first).concat(journal.rows);
    const told = { out: 0, off: [], unmarked: [], torn: [], twice: [] };
    for (let i = journal.first + 1; i < rows.length; i += 1) {
      ${slide("i")}
      const [plates, , at, going] = rows[i];
      [0, 1].forEach((arm) => {
        const station = faced[arm][at[3]];
        const [x, y] = centre(document.getElementById("hand-" + arm));
        if (at[4 + arm] === "o" && going[3] === "-" && station !== undefined) {
          const [wantedX, wantedY] = centre(document.getElementById("place-" + station));
          told.out += 1;
          if (Math.hypot(x - wantedX, y - wantedY) > 2) told.off.push(i);
        }
        if (plates[3 + arm] !== 0) {
          const [plateX, plateY] = centre(document.querySelector("#plate-" + (3 + arm) + " .tile"));
          if (Math.hypot(x - plateX, y - plateY) > 2) told.torn.push(i);
        }
      });
      if (document.querySelector("#floor .changed, #counts .changed") === null) told.unmarked.push(i);
      const shown = [...document.querySelectorAll("#cell .plate:not(.off)")].map((node) => parseInt(node.lastChild.textContent, 10));
      if (JSON.stringify(shown.sort((a, b) => a - b)) !== JSON.stringify(plates.filter((plate) => plate !== 0).sort((a, b) => a - b))) told.twice.push(i);
    }
    return told;
  })()`);
  check("arms that are out and don't end on a plate's place", found.off, []);
  check("plates that an arm has and that aren't at its end", found.torn, []);
  check("entries of which nothing in the drawing is marked", found.unmarked.filter((i) => i <= good), []);
  check("entries at which a plate isn't drawn once", found.twice, []);
  const still = text.split('<noscript><figure class="still">')[1].split("</figure>")[0];
  const places = [0, 1, 2, 5, 6, 7, 8].map((s) => geometry.stations[s])
    .filter(([x, y]) => !still.includes(`<rect x="${x - 23}" y="${y - 13}" width="46" height="26"`));
  check("places of plates that the picture hasn't", places, []);
  await media({});
  console.log(`${found.out} arms that are out end on a plate's place, and ${good - begin} entries are marked where they change something`);
};
const checkControls = async () => {
  await open("#entry=0");
  const go = async (what, act, i) => { await act(); check(what, await entry(), i); };
  await go("right", () => key("ArrowRight", 39), Math.min(last, begin + 1));
  await go("right again", () => key("ArrowRight", 39), Math.min(last, begin + 2));
  await go("left", () => key("ArrowLeft", 37), Math.min(last, begin + 1));
  await go("end", () => key("End", 35), last);
  await go("right at the end", () => key("ArrowRight", 39), last);
  await go("home", () => key("Home", 36), begin);
  await go("left at the start", () => key("ArrowLeft", 37), begin);
  await go("page down", () => key("PageDown", 34), Math.min(last, begin + 1));
  await go("page up", () => key("PageUp", 33), begin);
  for (const [id, i] of [["#end", last], ["#back", Math.max(begin, last - 1)], ["#forward", last], ["#first", begin]]) {
    await go(id, () => press(id), i);
    check(`the focus stays on ${id}`, await ask("document.activeElement.id"), id.slice(1));
  }
  await ask("document.getElementById('slider').focus()");
  await go("a key in the slider", () => key("ArrowRight", 39), Math.min(last, begin + 1));
  await press("#slider");
  check("a click in the slider's middle", Math.abs((await entry()) - entryAt(0.5)) <= Math.max(1, (last - begin) / 50), true);
  await ask("document.getElementById('number').focus(); document.getElementById('number').value = '" + (begin + 3) + "'");
  await go("the number box", () => key("Enter", 13), Math.min(last, begin + 3));
  await go("a key after the number box", () => key("ArrowRight", 39), Math.min(last, begin + 4));
  await key("g", 71);
  await tell("Input.insertText", { text: String(begin + 2) });
  await go("a number after a key for it", () => key("Enter", 13), Math.min(last, begin + 2));
  await press("#number");
  await tell("Input.insertText", { text: String(begin + 4) });
  await go("a number after a click into its box", () => key("Enter", 13), Math.min(last, begin + 4));
  await ask("document.activeElement.blur()");
  await ask("document.getElementById('speed').value = '33'");
  await key(" ", 32);
  await sleep(400);
  // A page of few entries is played to its end, where it stops.
  if (last - begin > 40) await key(" ", 32);
  for (let i = 0; last - begin <= 40 && i < 100 && (await ask("document.getElementById('play').textContent")) !== "Play"; i += 1) await sleep(50);
  const paused = await entry();
  await sleep(200);
  check("play by the space key", paused > begin + 4 || paused === last, true);
  check("a pause", await entry(), paused);
  await compare(paused);
  await goToAddress(last - 2);
  await press("#play");
  await sleep(500);
  check("play stops at the end", [await entry(), await ask("document.getElementById('play').textContent")], [last, "Play"]);
  await key("?", 191);
  check("the keys are opened", await ask("document.getElementById('keys').open"), true);
  await key("Escape", 27);
  check("the keys are closed", await ask("document.getElementById('keys').open"), false);
  console.log("keys, buttons, slider, number box, play and pause were tried");
};
// The spans: a click goes to the entry below it, whatever is shown of them, and the cursor stands there.
const checkSpans = async () => {
  await media({ "prefers-reduced-motion": "reduce" });
  await open("#entry=0");
  const cursor = () => ask(`(() => { const now = document.getElementById("now").getBoundingClientRect(); const bars = document.getElementById("bars").getBoundingClientRect();
    return { left: now.left, right: now.right, from: bars.left, to: bars.right, y: bars.top + 40, off: document.getElementById("now").classList.contains("off") }; })()`);
  for (const zooms of [0, 2, 4, -8]) {
    for (let k = 0; k < Math.abs(zooms); k += 1) await key(zooms > 0 ? "+" : "-", zooms > 0 ? 187 : 189);
    for (const share of [0.1, 0.5, 0.9]) {
      const { from, to, y } = await cursor();
      await click(from + (to - from) * share, y);
      const at = await entry();
      const now = await cursor();
      const x = from + (to - from) * share;
      check(`zoom ${zooms}: the cursor of entry ${at} stands below the click`, now.left - 5 <= x && x <= now.right + 5, true);
      await compare(at);
    }
  }
  // The cursor is always seen, wherever one steps to.
  await key("+", 187);
  await key("+", 187);
  const hidden = [];
  for (let k = 0; k <= 40; k += 1) {
    await ask(slide(entryAt(k / 40)));
    const { left, right, from, to, off } = await cursor();
    if (off || right < from - 1 || left > to) hidden.push(entryAt(k / 40));
  }
  check("entries at which the cursor isn't seen", hidden, []);
  const names = await ask("[...document.querySelectorAll('#names button')].map((button) => button.textContent)");
  check("rows", names.length, 9 + zones.length + stations.length + 2);
  const before = await ask("[...document.querySelectorAll('#names button')].map((button) => button.getBoundingClientRect().left)");
  check("names stay", before.every((left) => left === before[0]), true);
  // What is below the pointer is told: a bar by time with its times and its length.
  if (ends.length > 0) {
    await press("#by-time");
    await key("0", 48);
    const told = await ask(`(async () => {
      const bars = document.getElementById("bars");
      const box = bars.getBoundingClientRect();
      const told = [];
      for (let k = 1; k < 40; k += 1) for (const name of document.querySelectorAll("#names button")) {
        const row = name.getBoundingClientRect();
        bars.dispatchEvent(new PointerEvent("pointermove", { clientX: box.left + (box.width * k) / 40, clientY: row.top + row.height / 2 }));
        told.push([k / 40, document.getElementById("under").textContent]);
      }
      return told;
    })()`);
    const least = begin === 0 ? 0 : Math.min(...ends);
    const timeAt = (share) => least + share * (Math.max(...ends) - least);
    const off = told.filter(([share, words]) => { const [, from, to, long] = /time (\d+) to (\d+), (\d+) long/.exec(words) ?? [];
      return !(Number(from) <= timeAt(share) + 0.5 && timeAt(share) - 0.5 <= Number(to) && to - from === Number(long)); });
    check("times that aren't below the pointer", off.slice(0, 3), []);
    await press("#by-time");
  }
  await media({});
  console.log(`${names.length} rows of spans, their zoom and their cursor were tried`);
};
// Who waits: the words that are expected at an entry (WAITS, as "29: words"), and the outline of what stands in the way.
const checkWaits = async () => {
  await open("#entry=0");
  const [, at, words] = /^(\d+): (.*)$/s.exec(process.env.WAITS ?? "") ?? [];
  if (at !== undefined) {
    await ask(slide(at));
    check(`who waits at entry ${at}`, (await drawn()).waits, words.split("; "));
  }
  const outlined = () => ask("[...document.querySelectorAll('#cell .awaited')].map((part) => part.id)");
  const chosen = waiting.map((_, i) => i).filter((i) => waitsTold(i).length > 0);
  for (const i of chosen.slice(0, 40)) {
    await ask(slide(i));
    for (const m of machines.map((_, k) => k).filter((k) => waiting[i][k].length > 0)) {
      await ask(`document.getElementById("waits-list").children[${m}].focus()`);
      const part = waiting[i][m][2];
      check(`entry ${i}: what ${machines[m]} waits for is outlined`, (await outlined()).includes(part), part !== "");
    }
    await ask("document.activeElement.blur()");
    check(`entry ${i}: nothing is outlined without a pointer`, await outlined(), []);
  }
  console.log(`who waits was looked at in ${Math.min(40, chosen.length)} of ${chosen.length} states in which a machine does`);
};
// The list of failures, clearings and repairs: a click goes there, and Play stops there where that is asked for.
const checkEvents = async () => {
  const listed = await ask("[...document.querySelectorAll('#events button')].map((button) => Number(button.dataset.entry))");
  const kinds = ["declared", "stop_asked", "quarantined", "repaired", "expected", "reinstated"];
  check("failures, clearings and repairs", listed, rows.map((_, i) => i)
    .filter((i) => i > begin && (i > good || kinds.includes(rows[i][12].split(",")[0]))));
  for (const i of listed.slice(0, 5)) {
    await press(`#events button[data-entry="${i}"]`);
    check(`a click on entry ${i} in the list goes there`, await entry(), i);
  }
  const stop = listed.find((i) => i > begin && i < last);
  if (stop === undefined) return;
  await ask("document.getElementById('stops').checked = true; document.getElementById('speed').value = '33'; document.activeElement.blur()");
  await ask(slide(Math.max(begin, stop - 3)));
  await ask("document.getElementById('play').click()");
  for (let k = 0; k < 100 && (await ask("document.getElementById('play').textContent")) !== "Play"; k += 1) await sleep(20);
  const first = listed.find((i) => i > Math.max(begin, stop - 3));
  check("play stops at a failure, a clearing or a repair", await entry(), first);
  await ask("document.getElementById('stops').checked = false");
  console.log(`${listed.length} failures, clearings and repairs were tried`);
};
// The entries that name a plate or a zone, or after which it is elsewhere or has another holder, and those of a machine.
const ofPlate = (plate) => rows.map((_, i) => i).filter((i) => i > begin && i <= good
  && (` ${rows[i][13]} `.replaceAll(",", " ").includes(` plate ${plate} `) || rows[i][0].indexOf(plate) !== rows[i - 1][0].indexOf(plate)));
const ofZone = (zone) => rows.map((_, i) => i).filter((i) => i > begin && i <= good
  && (rows[i][13].endsWith(zones[zone]) || rows[i][4][zone] !== rows[i - 1][4][zone]));
const ofMachine = (m) => rows.map((_, i) => i).filter((i) => i > begin && i <= good
  && (rows[i][11] === m || rows[i][5][m] !== rows[i - 1][5][m] || rows[i][6][m] !== rows[i - 1][6][m]));
const walk = async (what, letter, list) => {
  await goToAddress(0);
  for (const i of list.slice(0, 12)) {
    await key(letter, letter.toUpperCase().charCodeAt(0));
    check(`${what}: ${letter}`, await entry(), i);
  }
  for (const i of list.slice(0, 12).reverse().slice(1)) {
    await key(letter.toUpperCase(), letter.toUpperCase().charCodeAt(0));
    check(`${what}: ${letter.toUpperCase()}`, await entry(), i);
  }
};
const checkFollowing = async () => {
  const first = rows.findIndex((row) => row !== undefined && row[0].some((plate) => plate !== 0));
  const failures = rows.map((_, i) => i).filter((i) => i > begin && (i > good || rows[i][12].startsWith("declared,")));
  await open("#entry=0");
  if (first > 0) {
    await ask(slide(first));
    const plate = rows[first][0].find((number) => number !== 0);
    await press(`#plate-${rows[first][0].indexOf(plate)} .tile`);
    check("a click follows a plate", await ask("document.getElementById('plate').value"), String(plate));
    check("the plate that is followed is marked", await ask("[...document.querySelectorAll('#cell .plate.followed')].map((node) => node.id)"), ["plate-" + rows[first][0].indexOf(plate)]);
    await ask("document.activeElement.blur()");
    await walk("a plate", "p", ofPlate(plate));
  }
  await press("#zone-2 .pill");
  check("a click follows a zone", await ask("[...document.querySelectorAll('#cell .zone.followed')].map((node) => node.id)"), ["zone-2"]);
  await walk("zone z3", "z", ofZone(2));
  await press("#machine-1 .name");
  check("a click follows a machine", await ask("[...document.querySelectorAll('#cell .machine.followed')].map((node) => node.id)"), ["machine-1"]);
  await walk("the table", "m", ofMachine(1));
  await press("#machine-1 .name");
  await press("#zone-2 .pill");
  check("a second click follows no longer", await ask("document.querySelectorAll('#cell .zone.followed, #cell .machine.followed').length"), 0);
  await walk("failures", "d", failures);
  await key("/", 191);
  check("a key goes to the search", await ask("document.activeElement.id"), "search");
  await tell("Input.insertText", { text: "claims" });
  const hits = rows.map((_, i) => i).filter((i) => i > begin && `${rows[i][13]}\n${rows[i][12]}`.toLowerCase().includes("claims"));
  check("what is found", await ask("document.getElementById('found').textContent"), hits.length + " found");
  await key("n", 78);
  check("a letter in the search is no key", (await ask("document.getElementById('search').value")).startsWith("claims"), true);
  await ask("(() => { const box = document.getElementById('search'); box.value = 'claims'; box.dispatchEvent(new Event('input')); })()");
  await key("Escape", 27);
  await walk("what is found", "n", hits);
  await ask("document.getElementById('letters').checked = false");
  const before = await entry();
  await key("d", 68);
  await key("D", 68);
  check("letters that are no keys", await entry(), before);
  await open("#entry=" + shown);
  await press("#machine-2 .name");
  await picture("followed");
  console.log("a plate, a zone, a machine, failures and the search were tried");
};
// Each part of the drawing is reached by Tab and has a name, and the focus isn't lost on the way.
const checkFocus = async () => {
  await open("#entry=" + shown);
  const reached = [];
  let lost = 0;
  for (let k = 0; k < 90; k += 1) {
    await key("Tab", 9);
    const [id, label] = await ask("[document.activeElement.id, document.activeElement.getAttribute('aria-label')]");
    if (id !== "" && reached[0] !== undefined && id === reached[0][0]) break;
    if (await ask("document.activeElement === document.body")) lost += 1;
    reached.push([id, label]);
  }
  const inDrawing = await ask("[...document.querySelectorAll('#cell .part:not(.off)')].map((node) => node.id)");
  check("parts of the drawing that Tab doesn't reach", inDrawing.filter((id) => !reached.some(([found]) => found === id)), []);
  check("parts of the drawing without a name", reached.filter(([id, label]) => inDrawing.includes(id) && !label), []);
  check("the strip is reached by Tab, and tells its place", await ask("(() => { const strip = document.getElementById('strip'); strip.focus(); return [document.activeElement.id, strip.getAttribute('role'), Number(strip.getAttribute('aria-valuenow'))]; })()"), ["strip", "slider", await entry()]);
  check("a row is reached by Tab", await ask("(() => { document.querySelector('#names button[tabindex=\"0\"]').focus(); return document.activeElement.parentNode.id; })()"), "names");
  const first = await ask("document.activeElement.textContent");
  await key("ArrowDown", 40);
  check("another row by a key", (await ask("document.activeElement.textContent")) !== first, true);
  check("its name tells what is in it", (await ask("document.activeElement.getAttribute('aria-label')")).includes(": "), true);
  check("the focus was lost", lost <= 1, true);
  const leaves = (i, s) => rows[i - 1][0][s] !== 0 && rows[i][0][s] !== rows[i - 1][0][s] && rows[i][0].includes(rows[i - 1][0][s]);
  const moved = rows.findIndex((_, i) => i > begin && stations.some((_, s) => leaves(i, s)));
  if (moved > begin) {
    const from = stations.findIndex((_, s) => leaves(moved, s));
    await ask(slide(moved - 1) + `document.getElementById("plate-${from}").focus();` + slide(moved));
    check("the focus goes with a plate", await ask("document.activeElement.id"), "plate-" + rows[moved][0].indexOf(rows[moved - 1][0][from]));
  }
  console.log(`${inDrawing.length} parts of the drawing were reached by Tab`);
};
// A step is drawn at once where less motion is asked for, else it is at its end after half a second.
const checkMotion = async () => {
  const place = () => ask(`[...document.querySelectorAll("#cell .plate:not(.off), #arm-0, #arm-1, #cell .bead, #pointer, #cell .bed")]
    .map((node) => ["transform", "x2", "y2", "cy", "r", "width"].map((name) => node.getAttribute(name)).join(" ")).join("; ")`);
  const steps = Array.from({ length: Math.min(last - begin, 40) }, (_, k) => begin + k + 1);
  for (const reduce of [true, false]) {
    await media({ "prefers-reduced-motion": reduce ? "reduce" : "no-preference" });
    await open("#entry=0");
    let moved = 0;
    for (const i of steps) {
      await key("ArrowRight", 39);
      const first = await place();
      if (!reduce) await sleep(480);
      const end = await place();
      await ask(slide(i > begin + 1 ? begin : last) + slide(i));
      check(`entry ${i} is drawn as after a jump`, end, await place());
      if (first !== end) moved += 1;
    }
    check(reduce ? "no motion where less is asked for" : "steps are drawn with motion", moved > 0, !reduce && last - begin > 6);
  }
  await media({});
  console.log(`${steps.length} steps were drawn with motion and without`);
};
// Colours of lines that mean something and of words, against what is below them.
const checkContrast = async (name) => {
  const pairs = [["--line", "--ground", 3], ["--line", "--machine", 3], ["--steel", "--ground", 3], ["--mark", "--ground", 3], ["--red", "--ground", 4.5], ["--red", "--machine", 3],
    ["--change", "--ground", 3], ["--change", "--machine", 3], ["--follow", "--ground", 4.5], ["--differ", "--ground", 4.5], ["--ink", "--ground", 4.5], ["--soft", "--ground", 4.5],
    ["--ink", "--halo", 4.5], ["--ink", "--held", 4.5], ["--ink", "--panel", 4.5], ["--soft", "--panel", 4.5], ["--mark", "--held", 3]];
  const low = await ask(`(() => {
    const style = getComputedStyle(document.documentElement);
    const light = (name) => { const n = parseInt(style.getPropertyValue(name).trim().slice(1), 16);
      return [16, 8, 0].map((shift) => ((n >> shift) & 255) / 255).map((c) => (c <= 0.04045 ? c / 12.92 : ((c + 0.055) / 1.055) ** 2.4)).reduce((sum, c, k) => sum + c * [0.2126, 0.7152, 0.0722][k], 0); };
    return ${JSON.stringify(pairs)}.map(([a, b, least]) => { const [x, y] = [light(a), light(b)].sort((p, q) => q - p); return [a, b, Math.round(((x + 0.05) / (y + 0.05)) * 10) / 10, least]; })
      .filter(([, , found, least]) => found < least);
  })()`);
  check(`${name}: colours that are too alike`, low, []);
};
// Texts of the drawing that lie over each other or are cut at its edge.
const checkTexts = async (name) => {
  const told = await ask(`(() => {
    const all = document.getElementById("cell").getBoundingClientRect();
    const seen = (node) => node.textContent.trim() !== "" && node.getClientRects().length > 0 && getComputedStyle(node).visibility === "visible";
    const boxes = [...document.querySelectorAll("#cell text")].filter(seen).map((node) => [node.textContent, node.getBoundingClientRect()]);
    const cut = boxes.filter(([, box]) => box.left < all.left - 1 || box.right > all.right + 1 || box.top < all.top - 1 || box.bottom > all.bottom + 1).map(([words]) => words);
    const over = [];
    boxes.forEach(([one, a], k) => boxes.slice(k + 1).forEach(([two, b]) => {
      const wide = Math.min(a.right, b.right) - Math.max(a.left, b.left);
      const high = Math.min(a.bottom, b.bottom) - Math.max(a.top, b.top);
      if (wide > 2 && high > 0.35 * Math.min(a.height, b.height)) over.push(one + " / " + two);
    }));
    return { cut, over };
  })()`);
  check(`${name}: texts that the drawing's edge cuts`, told.cut, []);
  check(`${name}: texts over others`, told.over, []);
};
// Each part of the drawing has a square of 24 pixels in which it is hit, and nothing else: points within it are asked.
const checkTargets = async (name, clicked = false) => {
  const squares = await ask(`(() => {
    document.getElementById("cell").scrollIntoView({ block: "start" });
    const known = new Map();
    const at = (x, y) => { const key = x * 8192 + y;
      if (!known.has(key)) known.set(key, document.elementFromPoint(x + 0.5, y + 0.5)?.closest("#cell .part") ?? null);
      return known.get(key); };
    const points = [...Array(576).keys()].map((k) => [k % 24, Math.floor(k / 24)])
      .filter(([x, y]) => x % 23 === 0 || y % 23 === 0 || (x % 6 === 0 && y % 6 === 0)).sort((a, b) => b[0] - a[0]);
    const find = (part) => { const box = part.getBoundingClientRect();
      for (let top = Math.floor(box.top); top + 23 <= box.bottom; top += 1) for (let left = Math.floor(box.left); left + 23 <= box.right;) {
        const other = points.find(([x, y]) => at(left + x, top + y) !== part);
        if (other === undefined) return [left + 12, top + 12];
        left += other[0] + 1; }
      return null; };
    return [...document.querySelectorAll("#cell .part:not(.off)")].map((part) => [part.id, find(part)]);
  })()`);
  check(`${name}: parts of the drawing that aren't hit in 24 by 24 pixels`, squares.filter(([, place]) => place === null).map(([id]) => id), []);
  // A click in its square follows a part, and another one follows it no longer.
  for (const [id, place] of clicked ? squares.filter(([, found]) => found !== null) : []) {
    const followed = id.replace("lamp-0", "machine-0").replace("lamp-1", "machine-5");
    for (const wanted of [[followed], []]) {
      await click(...place);
      check(`${name}: what a click on ${id} follows`, await ask("[...document.querySelectorAll('#cell .followed')].map((part) => part.id)"), wanted);
    }
  }
  await ask("document.activeElement.blur(); window.scrollTo(0, 0)");
};
// The picture lies over neither the entry's sentence nor who waits.
const checkPicture = async (name) => {
  const apart = await ask(`(() => { const box = (id) => document.getElementById(id).getBoundingClientRect();
    return box("last").bottom <= box("picture").top + 1 && box("picture").bottom <= box("waits").top + 1; })()`);
  check(`${name}: the picture lies over no words`, apart, true);
};
// No control moves, whatever the entry.
const checkStill = async (name) => {
  const moved = await ask(`(async () => {
    const places = () => [...document.querySelectorAll("#controls button, #controls input, #controls select, #jumps button, #jumps input, #jumps select, #spans-head button")]
      .map((node) => { const box = node.getBoundingClientRect(); return [node.id, box.left, box.top, box.width, box.height].join(" "); }).join("; ");
    const first = places();
    const moved = [];
    for (let i = ${begin}; i <= ${last}; i += ${Math.max(1, Math.floor((last - begin) / 430))}) { ${slide("i")} if (places() !== first) moved.push(i); }
    return moved;
  })()`);
  check(`${name}: entries at which a control moves`, moved, []);
  const small = await ask(`[...document.querySelectorAll("button, select, input")].filter((node) => node.getClientRects().length > 0 && node.closest("dialog, #names, #events, label") === null)
    .filter((node) => { const box = node.getBoundingClientRect(); return box.width < 24 || box.height < 24; }).map((node) => node.id)`);
  check(`${name}: controls smaller than 24 pixels`, small, []);
};
const sizes = [["wide", 1600, 900, false, 1], ["laptop", 1280, 800, false, 1], ["tall", 1000, 1200, false, 1], ["narrow", 390, 844, false, 1], ["dark", 1280, 800, true, 1],
  ["narrow-dark", 390, 844, true, 1], ["doubled", 640, 400, false, 2]];
const checkSizes = async () => {
  for (const [name, width, height, dark, factor] of sizes) {
    await resize(width, height, factor);
    await media({ "prefers-color-scheme": dark ? "dark" : "light", "prefers-reduced-motion": "reduce" });
    await open("#entry=" + shown);
    check(`${name}: nothing is wider than the window`, await ask("document.documentElement.scrollWidth <= innerWidth"), true);
    const below = await ask(`["cell", "waits", "spans", "controls", "last"].filter((id) => { const box = document.getElementById(id).getBoundingClientRect(); return box.bottom > innerHeight + 1 || box.top < 0; })`);
    check(`${name}: what isn't on the first screen`, below, factor === 2 ? below : []);
    await checkContrast(name);
    await checkPicture(name);
    for (const k of [0, 0.2, 0.35, 0.5, 0.65, 0.8, 1]) {
      await ask(slide(entryAt(k)));
      await checkTexts(`${name}, entry ${entryAt(k)}`);
      if (name === "narrow" || (k === 0.5 && !dark)) await checkTargets(`${name}, entry ${entryAt(k)}`, name === "narrow" && k === 0.5);
    }
    const least = await ask(`Math.min(...[...document.querySelectorAll("#cell text")].filter((node) => node.textContent !== "" && node.getClientRects().length > 0
      && node.closest(".plate") === null).map((node) => parseFloat(getComputedStyle(node).fontSize) * document.getElementById("cell").getScreenCTM().a))`);
    check(`${name}: words of the drawing of ${name.startsWith("narrow") ? 8 : 9} pixels and more (${least.toFixed(1)})`, least >= (name.startsWith("narrow") ? 8 : 9), true);
    await checkStill(name);
    await ask(slide(shown));
    await picture(name);
  }
  await resize(1280, 800);
  await media({ "prefers-reduced-motion": "reduce" });
  await open("#entry=" + shown);
  await key("w", 87);
  await checkTexts("larger");
  await checkTargets("larger");
  await checkPicture("larger");
  await picture("larger");
  await media({ "prefers-reduced-motion": "reduce" }, "print");
  await resize(760, 1080);
  await open("#entry=" + shown);
  await ask("window.dispatchEvent(new Event('beforeprint'))");
  check("print: buttons", await ask("[...document.querySelectorAll('button, input, select')].filter((node) => node.getClientRects().length > 0 && node.closest('#names') === null).map((node) => node.id)"), []);
  check("print: what is shown", await ask("['cell', 'bars', 'facts'].filter((id) => document.getElementById(id).getClientRects().length === 0)"), []);
  await picture("print");
  await media({});
  await resize(1280, 800);
  console.log(`pictures were taken: ${sizes.map(([name]) => name).join(", ")}, larger, print`);
};
const checkWithoutScripts = async () => {
  await tell("Emulation.setScriptExecutionDisabled", { value: true });
  await tell("Page.navigate", { url: address });
  await sleep(1000);
  await tell("Emulation.setScriptExecutionDisabled", { value: false });
  const words = await ask("document.body.innerText");
  check("without scripts the picture of the last state is shown", await ask("document.querySelector('.still svg')?.getClientRects().length"), 1);
  const without = await ask("['last', 'cell', 'waits', 'controls', 'jumps', 'strip', 'lanes', 'events', 'facts'].filter((id) => document.getElementById(id).getClientRects().length > 0)");
  check("without scripts nothing is shown that scripts fill", without, []);
  await picture("without-scripts");
  check("without scripts the page says so", words.includes("needs scripts"), true);
  check("without scripts the last entry is told", words.includes(good === 0 ? "Nothing is booked" : rows[good][13]), true);
};

const run = async () => {
  await resize(1280, 800);
  const took = await open("#entry=0");
  // The median, so that what else the machine does counts little.
  const step = await ask(`(() => { const times = Array.from({ length: 401 }, () => { const start = performance.now();
      document.getElementById("forward").click(); return performance.now() - start; });
    return times.slice(0, Math.max(1, ${last - begin})).sort((a, b) => a - b)[Math.floor(Math.min(401, Math.max(1, ${last - begin})) / 2)]; })()`);
  const jump = await ask(`(async () => { const start = performance.now();
    for (let k = 0; k < 50; k += 1) { ${slide(`${begin} + Math.round((${last - begin} * k) / 50)`)} document.body.getBoundingClientRect();
      await new Promise((next) => requestAnimationFrame(next)); }
    return (performance.now() - start) / 50; })()`);
  console.log(`${last - begin} entries, ${text.length} bytes: open in ${took} ms, a step in ${step.toFixed(2)} ms, a jump in ${jump.toFixed(1)} ms`);
  check("a step of less than 2 milliseconds", step < 2, true);
  await checkEntries();
  await checkPlaces();
  await checkControls();
  await checkSpans();
  await checkWaits();
  await checkEvents();
  await checkFollowing();
  await checkFocus();
  await checkMotion();
  await checkSizes();
  await checkWithoutScripts();
};
await finish(address, run);
