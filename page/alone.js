// ---- The office in this page: the service of spadesk.html, which tools/makers/one_file.py puts into office.html.
// The office is the bytes of a database file, as the program writes it. The proved code, OFFICE, takes these and the bytes of requests, and
// gives the answers and the file after them. The file stands in the browser's storage before a change is told.
const EMPTY = { file: new Uint8Array(), turn: 0, copied: 0 }; // the bytes; how often they were changed; at which of these a copy was saved
const MOST_REQUESTS = 100; // of a stream
const WORKERS = Math.min(4, navigator.hardwareConcurrency || 2); // so many streams are read side by side
const ELSEWHERE = 423;
const here = { office: EMPTY, isOurs: false, keeps: undefined, known: new Map() }; // known: what was read of this office, by its path
function has(office) {
  if (office.turn !== here.office.turn) here.known.clear();
  here.office = office;
}
Object.assign(REFUSALS, {
  1: ["Memory", "The browser had no memory left.", "Close other pages and programs, and send it again."],
  2: ["Storage", "The browser has not stored it: its storage is full, or it stores nothing here.",
    "Save a copy. Free space, or open the copy in another browser, and send it again."],
});
for (const number of [3, 5, 6, 7]) REFUSALS[number][2] = "Tell whoever gave you this file: it does not fit together.";
Object.assign(SERVER, {
  [ELSEWHERE]: "Another tab of this browser has the office. Go on there, or close it.",
  502: "The proved code in this page has failed. Load the page again: what was told stands, and nothing else was changed.",
});

// The proved code, in workers: so the page stays alive. Each call has an instance of its own: one that is cut off leaves nothing for the next.
function works() {
  const NO_ROOM = 255, MOST_ROOM = 1 << 26;
  let compiled;
  async function called(file, stream, room) {
    const { memory, page_room, page_office } = (await WebAssembly.instantiate(compiled, {})).exports;
    const rooms = [file.length, stream.length, room, file.length + room, 16].map(length => [page_room(BigInt(length || 1)), BigInt(length)]);
    if (rooms.some(([at]) => !at)) return { status: 1 };
    // memory grows in a call: its buffer is another then
    new Uint8Array(memory.buffer).set(file, Number(rooms[0][0]));
    new Uint8Array(memory.buffer).set(stream, Number(rooms[1][0]));
    rooms[4][1] = 2n; // two numbers of eight bytes
    const status = Number(page_office(...rooms.flat()));
    if (status === NO_ROOM && room < MOST_ROOM) return called(file, stream, 4 * room);
    if (status) return { status: status === NO_ROOM ? 1 : status };
    const lengths = new BigUint64Array(memory.buffer, Number(rooms[4][0]), 2);
    const [answers, left] = [2, 3].map((at, place) => new Uint8Array(memory.buffer, Number(rooms[at][0]), Number(lengths[place])).slice());
    return { status: 0, answers, left };
  }
  onmessage = async ({ data: { module, file, stream } }) => {
    if (module) { compiled = module; return; }
    try { postMessage(await called(file, stream, 1 << 22)); } catch (fault) {
      postMessage(fault instanceof RangeError ? { status: 1 } : { fault: String(fault) });
    }
  };
}
const office = (async () => {
  const packed = new Blob([Uint8Array.from(atob(OFFICE), it => it.charCodeAt(0))]).stream().pipeThrough(new DecompressionStream("gzip"));
  return WebAssembly.compile(await new Response(packed).arrayBuffer());
})();
office.catch(() => {});
async function newWorker() {
  const it = new Worker(URL.createObjectURL(new Blob([`(${works})()`], { type: "text/javascript" })));
  it.postMessage({ module: await office });
  return it;
}
const free = Array(WORKERS).fill(undefined), turns = []; // a worker is made when it is first needed; who waits for one
// What the proved code makes of a file and a stream.
async function calls(file, stream) {
  let it = free.length ? free.pop() : await new Promise(done => turns.push(done));
  try {
    it ??= await newWorker();
    return await new Promise((done, fail) => {
      it.onmessage = ({ data }) => (data.fault ? fail(new Error(data.fault)) : done(data));
      it.onerror = event => fail(new Error(event.message));
      it.postMessage({ file, stream });
    });
  } finally {
    turns.length ? turns.shift()(it) : free.push(it);
  }
}

// The browser's storage. A change is one transaction. It is not made over a later one of another tab; where the storage was cleared
// meanwhile, what this page has is stored again.
const storage = new Promise((done, fail) => {
  const it = indexedDB.open("spadesk", 1);
  it.onupgradeneeded = () => it.result.createObjectStore("office");
  it.onsuccess = () => done(it.result);
  it.onerror = () => fail(it.error);
});
storage.catch(() => {});
async function stored() {
  const asked = (await storage).transaction("office").objectStore("office").get("school.db");
  return new Promise((done, fail) => { asked.onsuccess = () => done(asked.result ?? EMPTY); asked.onerror = () => fail(asked.error); });
}
async function store(next) {
  const change = (await storage).transaction("office", "readwrite", { durability: "strict" }), all = change.objectStore("office");
  const was = all.get("school.db"), { turn } = here.office;
  const ended = new Promise((done, fail) => { change.oncomplete = done; change.onabort = change.onerror = () => fail(change.error ?? new Error("changed")); });
  was.onsuccess = () => ((was.result ?? EMPTY).turn <= turn ? all.put(next, "school.db") : change.abort());
  await ended;
  has(next);
  here.keeps ??= navigator.storage?.persist?.().then(it => { here.isKept = it; showPlace(); }, () => {});
  if (here.copy && !isCopied()) await writeCopy();
  showPlace();
}

// Of several tabs one has the office, as long as it is open: the browser lends it a lock. The others read it as it is stored. Where the
// browser has no locks each tab has it, and a change is still stored only over what it was made of.
const forever = new Promise(() => {});
const locks = navigator.locks ?? { request: async () => { throw new Error("no locks"); } };
async function begin() {
  has(await stored().catch(() => EMPTY));
  here.isStoring = await storage.then(() => true, () => false);
  here.isOurs = await new Promise(done => {
    locks.request("spadesk", { ifAvailable: true }, lock => { done(Boolean(lock)); return lock && forever; }).catch(() => done(true));
  });
  if (!here.isOurs) locks.request("spadesk", () => { takeOver(); return forever; });
  showPlace();
}
async function takeOver() {
  has(await stored());
  here.isOurs = true;
  forget();
  showPlace();
  await act(look);
}
const begun = begin();
function forget() {
  names.clear();
  texts.clear();
}

// ---- Requests: those that are asked in one turn are one stream
const inBytes = text => (typeof text === "string" ? new TextEncoder().encode(text) : text ?? new Uint8Array());
function joined(parts) {
  const all = new Uint8Array(parts.reduce((sum, it) => sum + it.length, 0));
  parts.reduce((at, it) => { all.set(it, at); return at + it.length; }, 0);
  return all;
}
function messageOf(method, path, body) {
  const bytes = inBytes(body);
  return joined([inBytes(`${method} ${path} HTTP/1.1\r\nContent-Length: ${bytes.length}\r\n\r\n`), bytes]);
}
// The answers in the bytes that the proved code wrote.
function answersIn(bytes) {
  const answers = [];
  for (let at = 0; at < bytes.length;) {
    let end = at;
    while (end < bytes.length && !(bytes[end] === 13 && bytes[end + 1] === 10 && bytes[end + 2] === 13 && bytes[end + 3] === 10)) end += 1;
    const [line, ...fields] = new TextDecoder().decode(bytes.subarray(at, end)).split("\r\n");
    const of = name => fields.find(it => it.toLowerCase().startsWith(`${name}:`))?.slice(name.length + 1).trim();
    const from = end + 4;
    at = from + Number(of("content-length") ?? 0);
    answers.push({ status: Number(line.split(" ")[1]), type: of("content-type") ?? "", text: new TextDecoder().decode(bytes.subarray(from, at)) });
  }
  return answers;
}
const refused = number =>
  ({ status: 503, type: "application/json", text: JSON.stringify({ fault: (REFUSALS[number] ?? REFUSALS[1])[0], number }) });
const isSame = (a, b) => a.length === b.length && a.every((byte, at) => byte === b[at]);
let waiting = [], isServing = false;
// The answers to some requests; fewer where one of them has ended the stream.
async function answersTo(part) {
  if (!here.isOurs) has(await stored());
  const { file, turn, copied } = here.office, isRead = part.every(it => it.isRead);
  const { status, answers, left } = await calls(file, joined(part.map(it => it.message)));
  if (status) return part.map(() => refused(status));
  if (!isRead && !isSame(file, left)) {
    try { await store({ file: left, turn: turn + 1, copied }); } catch {
      const now = await stored().catch(() => EMPTY);
      if (now.turn > turn) has(now);
      return part.map(() => refused(2));
    }
  }
  const came = answersIn(answers), last = part.findLastIndex(it => !it.isRead);
  for (const [at, answer] of came.entries()) if (at > last && answer.status < 500) here.known.set(part[at].path, answer);
  return came;
}
async function serveOne(part) {
  try {
    const answers = await answersTo(part);
    if (!answers.length) throw new Error("no answer");
    part.slice(0, answers.length).forEach((it, at) => it.done(answers[at]));
    waiting = [...part.slice(answers.length), ...waiting];
  } catch (fault) { for (const it of part) it.fail(fault); }
}
// Streams that change nothing are served side by side, any other alone.
async function serve() {
  await begun;
  while (waiting.length) {
    const isRead = waiting.every(it => it.isRead), parts = [];
    do parts.push(waiting.splice(0, MOST_REQUESTS)); while (isRead && waiting.length && parts.length < WORKERS);
    here.isChanging = !isRead;
    await Promise.all(parts.map(serveOne));
    here.isChanging = false;
    await new Promise(done => setTimeout(done)); // what is asked on these answers comes into the next stream
  }
  isServing = false;
}
Object.assign(service, {
  isAlone: true,
  atOnce: MOST_REQUESTS * WORKERS,
  async send(method, path, body) {
    await begun;
    const isRead = method === "GET";
    if (!isRead && !here.isOurs) return { status: ELSEWHERE, type: "", text: "" };
    const isSure = isRead && here.isOurs && !here.isChanging && waiting.every(it => it.isRead);
    if (isSure && here.known.has(path)) return here.known.get(path);
    return new Promise((done, fail) => {
      waiting.push({ message: messageOf(method, path, body), path, isRead, done, fail });
      if (!isServing) { isServing = true; setTimeout(serve); }
    });
  },
  answers: () => "",
  shown: "Nobody sees it before you print it or pass it on.",
  seen: " Whoever was told a place has to be told anew.",
});

// ---- Where the office is, and its copies
const isCopied = () => here.office.turn === here.office.copied;
function showPlace() {
  const { file } = here.office, size = `${Math.ceil(file.length / 1024)} KB`;
  const words = !here.isStoring ? "This browser stores nothing for this file, so nothing can be changed here. Open it in another browser, or not in a private window."
    : !here.isOurs ? "Another tab of this browser has the office. Here you can read it; close the other to go on here."
    : !file.length ? "The office will be in this browser, on this computer, and nowhere else. It is empty."
    : `The office is in this browser, on this computer, and nowhere else (${size}). ${here.copy ? `Each change is written to ${here.copy.name} too.`
      : isCopied() ? "You have saved a copy since the last change." : "No copy was saved since the last change."}`
      + " Whoever clears the browser’s data clears the office."
      + (here.isKept === false ? " The browser may clear it by itself when space is short." : "");
  byId("where").replaceChildren(el("p", {}, words), ...(here.isOurs && here.isStoring ? [rowOf(
    ...(file.length ? [button("copy", "Save a copy", saveCopy, isCopied() ? "" : "main")] : []),
    ...(file.length && window.showSaveFilePicker && !here.copy ? [button("write", "Write it to a file …", writeOn)] : []),
    button("bring", "Open a copy …", () => byId("brought").click()),
    ...(file.length ? [] : [button("small", "Load a small school to try it", loadSmall)]))] : []));
}
// A copy has the office as it is; where nothing can be stored the copy is all there is.
async function noteCopy() {
  const copied = { ...here.office, copied: here.office.turn };
  await store(copied).catch(() => { has(copied); showPlace(); });
}
async function saveCopy() {
  saved("school.db", here.office.file);
  await noteCopy();
  tell(["The copy school.db was handed to the browser. Look for it among the downloads before you rely on it."]);
}
// Where the browser can write to a file (File System Access): from now on each change is written to the one that is chosen, once it is
// stored. The browser puts the new bytes in the place of the old ones when all are written.
async function writeOn() {
  here.copy = await showSaveFilePicker({ suggestedName: "school.db" }).catch(() => undefined); // nothing was chosen
  if (!here.copy) return;
  await writeCopy();
  if (here.copy) tell([`The office is in ${here.copy.name}, and each change will be written there as long as this page is open.`]);
}
async function writeCopy() {
  try {
    const to = await here.copy.createWritable();
    await to.write(here.office.file);
    await to.close();
  } catch (fault) {
    tell([`${here.copy.name} could not be written: ${fault.message} The office in this browser has the change. Save a copy.`], true);
    here.copy = undefined;
    showPlace();
    return;
  }
  await noteCopy();
}
// What is in a file, in words; or why it is none of an office.
async function contents(file) {
  const ask = async paths => {
    const { status, answers } = await calls(file, joined(paths.map(path => messageOf("GET", path))));
    return status ? refuse(JSON.parse(refused(status).text)) : answersIn(answers);
  };
  if (!file.length) return "nothing";
  const all = (await ask(Array.from({ length: MAX_ROUNDS }, (_, at) => `/rounds/${at + 1}`))).filter(it => it.status === 200)
    .map(it => JSON.parse(it.text));
  if (!all.length) return "an office in which there has been no round yet";
  const [loads, missing] = await ask(["loads", "missing"].map(kind => `/reports/${kind}/${all.length}`)), it = all.at(-1);
  const rows = loads.text.split("\n").slice(0, -1), projects = rows.filter(row => row.startsWith("  ")).length;
  return `an office with ${counted(rows.length - projects, "supervisor")} and ${counted(projects, "project")}: ${stateInWords(it)}`
    + ` ${counted(missing.text.split("\n").length - 1, "student")} without a list.`;
}
async function openCopy([given]) {
  const file = new Uint8Array(await given.arrayBuffer());
  if (new TextDecoder("latin1").decode(file.subarray(0, 16)) !== "SQLite format 3\0") {
    tell([`${given.name} is no database of an office. Nothing was changed.`], true);
    return;
  }
  const [new_, old] = [await contents(file), await contents(here.office.file)];
  const question = `Open ${given.name}? In it is ${new_} It takes the place of what is in this browser, ${old}`
    + `${here.office.file.length && !isCopied() ? " No copy of that was saved since its last change." : ""}`
    + ` If ${given.name}-wal lies beside it, a program has it open: end that first, or changes are missing.`;
  if (!(await sure(question, "Open it"))) return;
  const turn = here.office.turn + 1;
  here.copy = undefined; // that file has the other office
  try { await store({ file, turn, copied: turn }); } catch { refuse({ fault: "Storage", number: 2 }); }
  forget();
  await look();
  tell([`${given.name} is open: ${new_}`]);
}
// The school of the first example, to try the page with.
async function loadSmall() {
  for (const kind of ["supervisors", "projects", "students"]) await ask("POST", `/imports/${kind}/${kind.toUpperCase()}`, SMALL[kind]);
  await ask("POST", "/rounds", JSON.stringify({ aim: "greedy" }));
  await ask("POST", "/imports/lists/LISTS", SMALL.lists);
  forget();
  await look();
  go("close");
  tell(["A small school is loaded, with a round that is open and the lists of 20 students. Its names are made up."]);
}
document.querySelector("header").append(el("div", { id: "where" }),
  el("input", { id: "brought", type: "file", hidden: "", accept: ".db" }));
byId("brought").addEventListener("change", event => act(async () => {
  await openCopy(event.target.files);
  event.target.value = "";
}));
byId("goodbye").textContent = "Save a copy when you are done: school.db is the whole office. This page opens it again on any computer, and so does the program.";
addEventListener("beforeunload", event => { if (here.isOurs && !isCopied()) event.preventDefault(); });
