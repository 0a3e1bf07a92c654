"use strict";

// ---------------------------------------------------------------------------------------------------------------------
// What the page says, in its two languages

const TEXTS = {
  en: {
    title: "Lanecockle: a page to try",
    lead: "Checks wage files and HUB3 slips on this computer. Nothing is kept, and nothing leaves it.",
    language: "Language",
    parts: "Parts of the page",
    wage: "Wage file",
    slip: "Slip",
    wet: "Wet slip",
    wageLead: "A file of 300, 301, 309 and 399 lines, judged for its day of submission.",
    day: "Day of submission",
    chooseWage: "Choose a wage file",
    chooseSlip: "Choose a file of a scan",
    orDrop: "or drop it here",
    again: "Judge again",
    stop: "Stop",
    progress: "Part of the file that is judged",
    soFar: "{percent} % · lines: {lines} · groups: {groups} · orders: {orders} · sum: {sum}",
    refusedSoFar: "A refusal is found; the rest of the file is passed over.",
    accepted: "Accepted",
    refused: "Refused (no. {number})",
    lines: "Lines",
    groups: "Groups",
    orders: "Orders",
    sum: "Sum of the orders",
    line: "Line",
    field: "Field",
    rule: "Rule",
    content: "Content",
    positions: "Content, positions {first} to {last}",
    markedPosition: "position {place} is marked",
    markedCharacter: "character {place} is marked",
    declared: "Declared in the 301 line",
    counted: "Counted",
    summed: "Summed up",
    hints: "What to do",
    slipLead: "What stands in a slip's barcode, as the reader gives it.",
    slipText: "Text of the barcode",
    read: "Read the slip",
    example: "Example",
    amount: "Amount",
    number: "No.",
    empty: "empty",
    mended: "What the barcode reader had added or lost was put right first.",
    ledger: "Kuna slip: read for the ledger, not to be paid",
    inKuna: "Amount in kuna",
    inEuro: "In euro, at 7.53450",
    wetLead: "Type ? for each unreadable digit (four at most) and choose among the fillings.",
    kind: "What is to be read",
    iban: "IBAN",
    reference: "Reference",
    oib: "OIB (checked only)",
    model: "Model",
    check: "Check",
    right: "This is right as it stands.",
    none: "No filling is right: another digit was probably misread.",
    fillings: "Possible fillings: {count}",
    shown: "The first {shown} are listed.",
    choose: "Choose the one that fits the slip:",
    chosen: "Chosen",
    copy: "Copy",
    copied: "Copied",
    noDay: "Give the day of submission.",
    noText: "Nothing is typed yet.",
    tooLarge: "This is too large: {limit} bytes at most.",
    unreachable: "The program does not answer, or the file cannot be read. Is lanecockle page still running?",
    failed: "The program did not take this (status {status}).",
    stopped: "Stopped.",
  },
  hr: {
    title: "Lanecockle: stranica za probu",
    lead: "Provjerava datoteke osobnih primanja i uplatnice HUB3 na ovom računalu. Ništa se ne pohranjuje niti šalje.",
    language: "Jezik",
    parts: "Dijelovi stranice",
    wage: "Osobna primanja",
    slip: "Uplatnica",
    wet: "Mokra uplatnica",
    wageLead: "Datoteka sa slogovima 300, 301, 309 i 399; provjerava se za dan podnošenja.",
    day: "Dan podnošenja",
    chooseWage: "Odaberite datoteku osobnih primanja",
    chooseSlip: "Odaberite datoteku skeniranog barkoda",
    orDrop: "ili je ispustite ovdje",
    again: "Provjeri ponovno",
    stop: "Prekini",
    progress: "Provjereni dio datoteke",
    soFar: "{percent} % · slogovi: {lines} · grupe: {groups} · nalozi: {orders} · zbroj: {sum}",
    refusedSoFar: "Pronađena je pogreška; ostatak datoteke se preskače.",
    accepted: "Prihvaćeno",
    refused: "Odbijeno (br. {number})",
    lines: "Slogovi",
    groups: "Grupe",
    orders: "Nalozi",
    sum: "Ukupan iznos naloga",
    line: "Slog",
    field: "Polje",
    rule: "Pravilo",
    content: "Sadržaj",
    positions: "Sadržaj, pozicije {first} do {last}",
    markedPosition: "označena je pozicija {place}",
    markedCharacter: "označen je {place}. znak",
    declared: "Upisano u slogu 301",
    counted: "Prebrojeno",
    summed: "Zbrojeno",
    hints: "Što učiniti",
    slipLead: "Sadržaj barkoda s uplatnice, onako kako ga daje čitač.",
    slipText: "Tekst barkoda",
    read: "Pročitaj uplatnicu",
    example: "Primjer",
    amount: "Iznos",
    number: "Br.",
    empty: "prazno",
    mended: "Prije čitanja ispravljeno je ono što je čitač barkoda dodao ili izgubio.",
    ledger: "Uplatnica u kunama: pročitana za poslovne knjige, ne za plaćanje",
    inKuna: "Iznos u kunama",
    inEuro: "U eurima, po tečaju 7,53450",
    wetLead: "Za svaku nečitljivu znamenku upišite ? (najviše četiri) i odaberite među mogućim dopunama.",
    kind: "Što treba pročitati",
    iban: "IBAN",
    reference: "Poziv na broj",
    oib: "OIB (samo provjera)",
    model: "Model",
    check: "Provjeri",
    right: "Ovako je ispravno.",
    none: "Nijedna dopuna nije ispravna: vjerojatno je pogrešno pročitana neka druga znamenka.",
    fillings: "Moguće dopune: {count}",
    shown: "Navedeno je prvih {shown}.",
    choose: "Odaberite onu koja odgovara uplatnici:",
    chosen: "Odabrano",
    copy: "Kopiraj",
    copied: "Kopirano",
    noDay: "Upišite dan podnošenja.",
    noText: "Još ništa nije upisano.",
    tooLarge: "Ovo je preveliko: dozvoljeno je najviše {limit} znakova.",
    unreachable: "Program ne odgovara ili se datoteka ne može pročitati. Radi li još lanecockle page?",
    failed: "Program ovo nije prihvatio (status {status}).",
    stopped: "Prekinuto.",
  },
};

const PARTS = ["wage", "slip", "wet"];
const LOCALES = { en: "en-GB", hr: "hr-HR" };
const LIMITS = { wage: 1002001002, slip: 4096, wet: 4096 };

// The names of the characters that U+2400 and those behind it picture.
const CONTROLS = ("NUL SOH STX ETX EOT ENQ ACK BEL BS HT LF VT FF CR SO SI DLE DC1 DC2 DC3 DC4 NAK SYN ETB CAN EM " +
  "SUB ESC FS GS RS US SP DEL").split(" ");

const EXAMPLES = {
  slip: ["HRVHUB30", "EUR", "000000000012355", "ŽELJKO SENEKOVIĆ", "IVANEČKA ULICA 125", "42000 VARAŽDIN",
    "2DBK d.d.", "ALKARSKI PROLAZ 13B", "21230 SINJ", "HR1210010051863000160", "HR01", "7269-68499637766-00011",
    "COST", "Troškovi za 1. mjesec", ""].join("\n"),
  iban: "HR12 1001 0051 8630 0?1?0",
  reference: "7269-684996377?6-0001?",
  oib: "12345678903",
};

let language = "en";
let part = "wage";
let wageFile = null;

// What is asked again in another language, by part; and the request that runs, by part.
const again = {};
const running = {};

const at = (id) => document.getElementById(id);

/** The text of a key in the page's language, its {names} filled in. */
function say(key, values = {}) {
  return TEXTS[language][key].replace(/\{(\w+)\}/g, (_, name) => values[name]);
}

function grouped(number) {
  return new Intl.NumberFormat(LOCALES[language]).format(number);
}

/** A day, YYYY-MM-DD, in words. */
function dayInWords(day) {
  const style = { day: "numeric", month: "long", year: "numeric", timeZone: "UTC" };
  return new Intl.DateTimeFormat(LOCALES[language], style).format(new Date(`${day}T00:00:00Z`));
}

/** Tells something to those who hear the page. */
function announce(text) {
  at("said").textContent = text;
}

// ---------------------------------------------------------------------------------------------------------------------
// Elements: whatever is shown goes in as text

function make(tag, attributes = {}, ...children) {
  const element = document.createElement(tag);
  for (const [name, value] of Object.entries(attributes)) {
    element.setAttribute(name, value);
  }
  element.append(...children);
  return element;
}

/** A list of names and contents. */
function pairs(kind, entries) {
  const row = ([name, content]) => make("div", {}, make("dt", {}, name), make("dd", {}, ...coded(content)));
  return make("dl", { class: kind }, ...entries.map(row));
}

/** A text, what stands in it between backticks set off. */
function coded(text) {
  return text.split("`").map((piece, index) => index % 2 ? make("code", {}, piece) : piece);
}

/** A paragraph of a kind, unless it is empty. */
function line(kind, text) {
  return text ? [make("p", { class: kind }, text)] : [];
}

function card(kind, title, ...children) {
  return make("div", { class: `card ${kind}` }, make("h2", {}, title), ...children);
}

function show(name, ...children) {
  at(`${name}-result`).replaceChildren(...children);
}

/** Says that something could not be asked or answered. */
function complain(name, text) {
  show(name, make("div", { class: "card refused" }, ...line("sentence", text)));
  announce(text);
}

// ---------------------------------------------------------------------------------------------------------------------
// Requests

/** Posts a body and hands what is answered to `answered`; an earlier request of the same part is dropped. */
function post(name, path, query, body, answered, prepare = () => {}) {
  const request = new XMLHttpRequest();
  stop(name);
  running[name] = request;
  prepare(request);
  request.onload = () => {
    delete running[name];
    if (request.status === 200) {
      answered(JSON.parse(request.responseText));
    } else {
      complain(name, failure(name, request.status));
    }
  };
  request.onerror = () => {
    delete running[name];
    complain(name, say("unreachable"));
  };
  request.open("POST", `${path}?${new URLSearchParams({ lang: language, ...query })}`);
  request.send(body);
}

function failure(name, status) {
  return status === 413 ? say("tooLarge", { limit: grouped(LIMITS[name]) }) : say("failed", { status });
}

/** Ends the request of a part, if one runs. */
function stop(name) {
  const request = running[name];
  delete running[name];
  if (request) {
    request.abort();
  }
}

// ---------------------------------------------------------------------------------------------------------------------
// A refusal

/** Shows a refusal, with a note above its place. */
function showRefusal(name, answer, note) {
  const refusal = answer.refusal;
  const title = say("refused", { number: refusal.number });
  const figures = figuresOf(answer);
  show(name, card("refused", title, ...line("note", note), ...line("sentence", refusal.sentence), ...placeOf(refusal),
    ...(refusal.field || !figures.length ? contentOf(refusal) : figures), ...hintsOf(refusal)));
  announce(`${title}. ${refusal.sentence}`);
}

function placeOf(refusal) {
  const entries = [];
  if (refusal.line) {
    entries.push([say("line"), grouped(refusal.line) + (refusal.type ? ` (${refusal.type})` : "")]);
  }
  if (refusal.field_name) {
    entries.push([say("field"), `${refusal.field} · ${refusal.field_name}`]);
  }
  if (refusal.rule) {
    entries.push([say("rule"), refusal.rule]);
  }
  return entries.length ? [pairs("places", entries)] : [];
}

/** The content, a character for each byte, with the mark on the one at which the refusal stands. */
function contentOf(refusal) {
  const characters = Array.from(refusal.content);
  const place = refusal.mark;
  if (!refusal.field && !refusal.content.trim()) {
    return [];
  }
  const title = make("h3", {}, contentTitle(refusal, characters.length));
  if (!characters.length) {
    return [title, ...line("note", say("empty"))];
  }
  const shown = characters.map(visible);
  if (place >= 0) {
    shown[place] = make("mark", {}, shown[place] || " ");
  }
  return [title, make("pre", {}, ...shown)];
}

/** A character as it is; the picture of a control character by its name, since few fonts have the picture. */
function visible(character) {
  const name = CONTROLS[character.charCodeAt(0) - 0x2400];
  return name ? make("span", { class: "control" }, name) : character;
}

function contentTitle(refusal, length) {
  const first = refusal.start;
  const titles = [first ? say("positions", { first, last: first + length - 1 }) : say("content")];
  if (refusal.mark >= 0) {
    titles.push(first ? say("markedPosition", { place: first + refusal.mark }) :
      say("markedCharacter", { place: refusal.mark + 1 }));
  }
  return titles.join("; ");
}

function figuresOf(answer) {
  const figures = Object.entries(answer.refusal.figures);
  const entries = figures.map(([name, figure]) => [say(name), answer.amounts[name] || grouped(figure)]);
  return entries.length ? [pairs("figures", entries)] : [];
}

function hintsOf(refusal) {
  const hints = refusal.hints.map((hint) => make("li", {}, ...coded(hint)));
  return hints.length ? [make("h3", {}, say("hints")), make("ul", { class: "hints" }, ...hints)] : [];
}

// ---------------------------------------------------------------------------------------------------------------------
// The wage file

function today() {
  const now = new Date();
  const two = (number) => String(number).padStart(2, "0");
  return `${now.getFullYear()}-${two(now.getMonth() + 1)}-${two(now.getDate())}`;
}

/** A name for a request that nobody else has: sixteen random bytes. */
function freshName() {
  const bytes = crypto.getRandomValues(new Uint8Array(16));
  return Array.from(bytes, (byte) => byte.toString(16).padStart(2, "0")).join("");
}

function judge(file) {
  const day = at("wage-day").value;
  stop("wage");
  wageFile = file;
  again.wage = () => judge(file);
  at("wage-again").hidden = false;
  showRunning(null);
  if (!/^[0-9]{4}-[0-9]{2}-[0-9]{2}$/.test(day)) {
    complain("wage", say("noDay"));
  } else if (file.size > LIMITS.wage) {
    complain("wage", failure("wage", 413));
  } else {
    send(file, day);
  }
}

function send(file, day) {
  const id = freshName();
  const counts = { sent: 0, lines: 0, groups: 0, orders: 0, sum: "…", refused: false };
  const tell = (told) => showRunning(file, Object.assign(counts, told));
  show("wage");
  tell({});
  const answered = (answer) => showJudged(file, day, answer);
  post("wage", "/api/wage", { day: day.replace(/-/g, ""), id }, file, answered, (request) => {
    const asking = setInterval(() => askProgress(id, request, tell), 250);
    request.upload.onprogress = (event) => tell({ sent: event.loaded });
    request.onloadend = () => {
      clearInterval(asking);
      if (!running.wage) {
        showRunning(null);
      }
    };
  });
}

/** Asks how far a file is judged; what comes after the request's end is passed over. */
async function askProgress(id, request, told) {
  try {
    const answer = await (await fetch(`/api/progress?id=${id}&lang=${language}`)).json();
    if (answer.running && running.wage === request) {
      told(answer);
    }
  } catch (error) {
    // the request itself says what is wrong
  }
}

function stopJudging() {
  stop("wage");
  again.wage = () => complain("wage", say("stopped"));
  again.wage();
}

function showRunning(file, counts) {
  at("wage-running").hidden = !file;
  if (file) {
    const share = file.size ? counts.sent / file.size : 1;
    at("wage-name").textContent = file.name;
    at("wage-progress").value = share;
    const [lines, groups, orders] = [counts.lines, counts.groups, counts.orders].map(grouped);
    const told = { percent: Math.floor(100 * share), lines, groups, orders, sum: counts.sum };
    at("wage-counts").textContent = counts.refused ? say("refusedSoFar") : say("soFar", told);
  }
}

function showJudged(file, day, answer) {
  const note = `${file.name} · ${say("day")}: ${dayInWords(day)}`;
  if (!answer.accepted) {
    showRefusal("wage", answer, note);
    return;
  }
  const figures = ["lines", "groups", "orders"].map((name) => [say(name), grouped(answer[name])]);
  figures.push([say("sum"), answer.sum]);
  show("wage", card("accepted", say("accepted"), ...line("note", note), pairs("figures", figures)));
  announce([say("accepted"), ...figures.map(([name, figure]) => `${name}: ${figure}`)].join(". "));
}

// ---------------------------------------------------------------------------------------------------------------------
// The slip

function readTyped() {
  const text = at("slip-text").value;
  if (text) {
    readSlip(text);
  } else {
    again.slip = readTyped;
    complain("slip", say("noText"));
  }
}

/** Reads a slip: text, which goes as UTF-8, or a file. */
function readSlip(slip) {
  stop("slip");
  again.slip = () => readSlip(slip);
  if ((slip.size || slip.length || 0) > LIMITS.slip) {
    complain("slip", failure("slip", 413));
    return;
  }
  post("slip", "/api/slip", {}, slip, (answer) => {
    const note = [slip.name, answer.changed && say("mended")].filter(Boolean).join(" · ");
    if (answer.accepted) {
      showFields(answer, note);
    } else {
      showRefusal("slip", answer, note);
      showLedger(answer.ledger);
    }
  });
}

/** Shows what a kuna slip says for the ledger, below its refusal. */
function showLedger(ledger) {
  if (ledger) {
    const figures = [[say("inKuna"), ledger.kuna], [say("inEuro"), ledger.euro]];
    at("slip-result").append(card("ledger", say("ledger"), pairs("figures", figures)), fieldTable(ledger.fields));
  }
}

function showFields(answer, note) {
  const amount = pairs("figures", [[say("amount"), answer.sum]]);
  show("slip", card("accepted", say("accepted"), ...line("note", note), amount), fieldTable(answer.fields));
  announce(`${say("accepted")}. ${say("amount")}: ${answer.sum}`);
}

/** The fields in rows; the roles are said outright, since a narrow screen shows the rows as blocks. */
function fieldTable(fields) {
  const keys = ["number", "field", "content"];
  const head = keys.map((key) => make("th", { role: "columnheader", scope: "col" }, say(key)));
  const rows = fields.map((field) => make("tr", { role: "row" },
    make("td", { role: "cell", class: "number" }, String(field.number)),
    make("th", { role: "rowheader", scope: "row" }, field.name),
    make("td", { role: "cell", class: field.content ? "content" : "note" }, field.content || say("empty"))));
  return make("table", { role: "table" },
    make("thead", { role: "rowgroup" }, make("tr", { role: "row" }, ...head)),
    make("tbody", { role: "rowgroup" }, ...rows));
}

// ---------------------------------------------------------------------------------------------------------------------
// The wet slip

function kind() {
  return document.querySelector("input[name=kind]:checked").value;
}

/** Asks for the fillings of what is typed, or, where no digit is unreadable, whether it is right. */
function askWet() {
  const what = kind();
  const asked = { text: at("wet-text").value };
  if (what === "reference") {
    asked.model = at("wet-model").value;
  }
  if (!asked.text.trim() && what !== "reference") {
    again.wet = askWet;
    complain("wet", say("noText"));
    return;
  }
  sendWet(what, asked, "");
}

function sendWet(what, asked, chosen) {
  again.wet = () => sendWet(what, asked, chosenFilling());
  const wet = asked.text.includes("?") && what !== "oib";
  const body = JSON.stringify(wet ? asked : { what, ...asked });
  post("wet", wet ? "/api/wet" : "/api/check", {}, body, (answer) => {
    if (!answer.accepted) {
      showRefusal("wet", answer, "");
    } else if (!wet) {
      showRight(what, answer.text);
    } else {
      showFillings(what, answer, chosen);
    }
  });
}

function showRight(what, text) {
  show("wet", card("accepted", say("right"), ...chosenText(what, text, text)));
  announce(say("right"));
}

function showFillings(what, answer, chosen) {
  const count = say("fillings", { count: grouped(answer.count) });
  if (!answer.count) {
    show("wet", card("refused", count, ...line("sentence", say("none"))));
    announce(say("none"));
    return;
  }
  const shown = answer.fillings.length < answer.count ? say("shown", { shown: grouped(answer.fillings.length) }) : "";
  const choices = answer.fillings.map((filling) => make("li", {}, choice(what, answer, filling)));
  show("wet", make("h2", {}, count), ...line("lead", `${shown} ${say("choose")}`),
    make("ul", { class: "fillings" }, ...choices), make("div", { id: "wet-chosen" }));
  announce(`${count}. ${shown}`);
  const only = answer.count === 1 ? answer.fillings[0] : chosen;
  if (answer.fillings.includes(only)) {
    choose(what, answer.text, only);
  }
}

function choice(what, answer, filling) {
  const button = make("button", { type: "button", "aria-pressed": "false" }, ...filledText(what, answer.text, filling));
  button.dataset.filling = filling;
  button.onclick = () => {
    choose(what, answer.text, filling);
    announce(`${say("chosen")}: ${filling}`);
  };
  return button;
}

function choose(what, typed, filling) {
  for (const button of document.querySelectorAll(".fillings button")) {
    button.setAttribute("aria-pressed", String(button.dataset.filling === filling));
  }
  at("wet-chosen").replaceChildren(card("accepted", say("chosen"), ...chosenText(what, typed, filling)));
}

function chosenFilling() {
  const button = document.querySelector(".fillings button[aria-pressed=true]");
  return button ? button.dataset.filling : "";
}

/** A text shown large, to be selected or copied without blanks. */
function chosenText(what, typed, filling) {
  const output = make("output", { class: "chosen" }, ...filledText(what, typed, filling));
  const button = make("button", { type: "button", class: "copy" }, say("copy"));
  button.onclick = async () => {
    try {
      await navigator.clipboard.writeText(filling);
      button.textContent = say("copied");
      announce(say("copied"));
    } catch (error) {
      getSelection().selectAllChildren(output);
    }
  };
  return [output, make("p", {}, button)];
}

/** The filling, each digit that was unreadable set off; an IBAN in fours, with no blank in what is copied. */
function filledText(what, typed, filling) {
  const characters = Array.from(filling, (character, index) =>
    typed[index] === "?" ? make("b", { class: "filled" }, character) : character);
  if (what !== "iban") {
    return characters;
  }
  const fours = [];
  for (let start = 0; start < characters.length; start += 4) {
    fours.push(make("span", { class: "four" }, ...characters.slice(start, start + 4)));
  }
  return fours;
}

// ---------------------------------------------------------------------------------------------------------------------
// Language and part, both told by the address: #hr/slip

function speak(chosen) {
  language = chosen;
  document.documentElement.lang = language;
  document.title = say("title");
  for (const element of document.querySelectorAll("[data-text]")) {
    element.textContent = say(element.dataset.text);
  }
  for (const element of document.querySelectorAll("[data-label]")) {
    element.setAttribute("aria-label", say(element.dataset.label));
  }
  for (const name of Object.keys(TEXTS)) {
    at(name).setAttribute("aria-pressed", String(name === language));
  }
}

function turnTo(chosen) {
  part = chosen;
  for (const name of PARTS) {
    const tab = at(`tab-${name}`);
    tab.setAttribute("aria-selected", String(name === part));
    tab.tabIndex = name === part ? 0 : -1;
    at(name).hidden = name !== part;
  }
}

function goTo(chosenLanguage, chosenPart) {
  history.replaceState(null, "", `#${chosenLanguage}/${chosenPart}`);
  follow();
}

/** Goes by the address; in another language what is shown is asked again. */
function follow() {
  const [named, turned] = location.hash.slice(1).split("/");
  const before = language;
  speak(Object.keys(TEXTS).includes(named) ? named : document.documentElement.lang);
  turnTo(PARTS.includes(turned) ? turned : part);
  if (language !== before) {
    Object.values(again).forEach((ask) => ask());
  }
}

function turnByKey(event) {
  const step = { ArrowLeft: -1, ArrowRight: 1 }[event.key];
  if (step) {
    const next = PARTS[(PARTS.indexOf(part) + step + PARTS.length) % PARTS.length];
    goTo(language, next);
    at(`tab-${next}`).focus();
    event.preventDefault();
  }
}

// ---------------------------------------------------------------------------------------------------------------------
// What the reader does

function chooseKind() {
  const what = kind();
  stop("wet");
  delete again.wet;
  at("wet-model-line").hidden = what !== "reference";
  at("wet-text-label").dataset.text = what;
  at("wet-text-label").textContent = say(what);
  show("wet");
}

/** A file dropped anywhere on the page goes to the part that is shown. */
function dropped(event) {
  event.preventDefault();
  document.body.classList.remove("over");
  const file = event.dataTransfer.files[0];
  if (file && part === "wage") {
    judge(file);
  } else if (file && part === "slip") {
    readSlip(file);
  }
}

/** Hands the chosen file on; the same one may be chosen again. */
function onFile(id, taken) {
  at(id).addEventListener("change", (event) => {
    if (event.target.files[0]) {
      taken(event.target.files[0]);
    }
  });
  at(id).addEventListener("click", (event) => {
    event.target.value = "";
  });
}

function onSubmit(id, taken) {
  at(id).addEventListener("submit", (event) => {
    event.preventDefault();
    taken();
  });
}

function onClick(id, taken) {
  at(id).addEventListener("click", taken);
}

function begin() {
  at("wage-day").value = today();
  onFile("wage-file", judge);
  onClick("wage-again", () => judge(wageFile));
  onClick("wage-stop", stopJudging);
  onFile("slip-file", readSlip);
  onSubmit("slip-form", readTyped);
  onClick("slip-example", () => {
    at("slip-text").value = EXAMPLES.slip;
  });
  onSubmit("wet-form", askWet);
  onClick("wet-example", () => {
    at("wet-text").value = EXAMPLES[kind()];
  });
  document.querySelectorAll("input[name=kind]").forEach((radio) => radio.addEventListener("change", chooseKind));
  Object.keys(TEXTS).forEach((name) => onClick(name, () => goTo(name, part)));
  PARTS.forEach((name) => onClick(`tab-${name}`, () => goTo(language, name)));
  document.querySelector("[role=tablist]").addEventListener("keydown", turnByKey);
  document.addEventListener("dragover", (event) => {
    event.preventDefault();
    document.body.classList.add("over");
  });
  document.addEventListener("dragleave", () => document.body.classList.remove("over"));
  document.addEventListener("drop", dropped);
  window.addEventListener("hashchange", follow);
  chooseKind();
  follow();
}

begin();
