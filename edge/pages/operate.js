// The operators' page: a timeline of what the channel keeps, catch-up recordings cut from it, and their certificates, checked in the
// browser. It requests the origin's own routes (docs/HTTP.md) below origin/1/ beside the page, which only operators can reach at an
// edge; ?origin=2 requests those of the second origin. Nothing here is to be changed for a site.
"use strict";

import { segmentsOf, checkAside, drawPrices, wordsOf, CERTIFICATE_LIMIT } from "./prices.js";
import { Channel, Refused } from "./operate_channel.js";
import { Lanes } from "./operate_lanes.js";
import { ListFault, addressOf, load } from "./playlist.js";

const LOG_LIMIT = 4194304;
const JOB_LIMIT = 64;
const SURVEY_EVERY = 60; // seconds
const LOOK_EVERY = 2;
const LATE = 4; // seconds of lag above which a rendition is shown as late

const $ = (id) => document.getElementById(id);
const origin = new URLSearchParams(location.search).get("origin") ?? "1";
const channel = new Channel(addressOf(`origin/${/^[12]$/.test(origin) ? origin : "1"}/`, location.href));
const lanes = new Lanes($("lanes"), channel);
let shown = null; // the certificate that is drawn
let shows = 0; // how many certificates were chosen
let jobsShown = null;

const sleep = (seconds) => new Promise((done) => { setTimeout(done, 1000 * seconds); });
const say = (words) => { if ($("words").textContent !== words) $("words").textContent = words; };
const megabytes = (bytes) => bytes < 1e9 ? `${(bytes / 1e6).toFixed(bytes < 1e7 ? 1 : 0)} MB` : `${(bytes / 1e9).toFixed(2)} GB`;
const many = (number) => number.toLocaleString("en-US");

// A time of the channel's clock as text: a time of day if there is an epoch, else seconds.
function clockOf(time) {
    if (channel.epoch === null) return `${(time / 1000000).toFixed(0)} s`;
    const date = new Date(channel.epoch + time / 1000);
    return Number.isNaN(date.getTime()) ? "" : date.toLocaleTimeString("en-GB");
}

// A time as a value of the form's fields, in the browser's time zone; and back. Plain numbers are seconds of the channel's clock.
function spell(time) {
    if (channel.epoch === null) return (time / 1000000).toFixed(3);
    const date = new Date(channel.epoch + time / 1000);
    const two = (n, width = 2) => String(n).padStart(width, "0");
    return `${date.getFullYear()}-${two(date.getMonth() + 1)}-${two(date.getDate())} ${two(date.getHours())}:${two(date.getMinutes())}:${two(date.getSeconds())}.${two(date.getMilliseconds(), 3)}`;
}

function timeOf(text) {
    if (/^\s*\d{1,10}(\.\d{1,6})?\s*$/.test(text)) return Math.round(Number(text) * 1000000);
    const found = Date.parse(text.trim().replace(" ", "T"));
    if (Number.isNaN(found) || channel.epoch === null) throw new Error("Enter a time as 2024-01-01 20:00:00, or in seconds of the channel's clock.");
    return Math.round((found - channel.epoch) * 1000);
}

const make = (name, properties = {}, ...children) => {
    const element = Object.assign(document.createElement(name), properties);
    element.append(...children);
    return element;
};

function paintFigures() {
    const { status, pace, left, renditions, table } = channel;
    $("log").textContent = left === null ? "-" : many(LOG_LIMIT - left);
    // a channel with a journal begins a new log long before this one is half full
    const days = pace > 0 && left !== null && left < LOG_LIMIT / 2 ? left / pace / 86400 : null;
    $("logMore").textContent = `of ${many(LOG_LIMIT)} entries${days === null ? "" : `; full in ${days < 2 ? `${(24 * days).toFixed(0)} hours` : `${days.toFixed(0)} days`}`}`;
    $("memory").textContent = renditions.some(({ kept }) => kept !== null) ? megabytes(renditions.reduce((sum, { kept }) => sum + kept, 0)) : "-";
    $("memoryMore").textContent = `of ${megabytes(renditions.reduce((sum, { total }) => sum + total, 0))} received`;
    $("places").textContent = many(status.places ?? 0);
    $("placesMore").textContent = table ? `${many(table.places)} of them kept` : "";
    $("segments").textContent = many(status.segments ?? 0);
    $("segmentsMore").textContent = `${many(status.removed ?? 0)} removed`;
    $("jobs").textContent = `${status.jobs ?? 0} of ${JOB_LIMIT}`;
    $("jobsMore").textContent = status.jobs > JOB_LIMIT / 2 ? "delete those that aren't needed" : "";
    $("clock").textContent = new Date().toLocaleTimeString("en-GB");
}

// The table's cells for a rendition: among them its lag from the newest end of all, and the time since anything arrived.
function cellsOf({ number, kind, name, codec, newest, gaps, kept, units, bandwidth }, behind, silent) {
    const length = units.length > 1 ? (newest.to - units[0].from) / 1000000 : 0;
    const rate = length > 0 ? units.reduce((sum, unit) => sum + unit.bytes, 0) * 8 / length : null;
    const told = bandwidth ? ` of ${(bandwidth / 1e6).toFixed(2)}` : "";
    return [
        [number, kind, name].filter((word) => word !== "").join(" "),
        codec,
        kept === null ? "" : megabytes(kept),
        newest ? clockOf(newest.to) : "",
        behind === null ? "" : behind < 0.05 ? "none" : `${behind.toFixed(1)} s`,
        silent === null ? "" : `${silent.toFixed(0)} s ago`,
        gaps,
        rate === null ? "" : `${(rate / 1e6).toFixed(2)} Mbit/s${told}`,
    ];
}

function paintRenditions() {
    const rows = channel.renditions.map((rendition) => {
        const behind = rendition.newest ? (channel.end - rendition.newest.to) / 1000000 : null;
        const silent = rendition.cameAt === null ? null : (performance.now() - rendition.cameAt) / 1000;
        const isLate = behind !== null && (behind > LATE || silent > 2 * channel.target);
        const [head, ...cells] = cellsOf(rendition, behind, silent);
        return make("tr", { className: isLate ? "late" : "" }, make("th", { scope: "row", textContent: head }), ...cells.map((textContent) => make("td", { textContent })));
    });
    $("renditions").replaceChildren(...rows);
    const late = channel.renditions.filter((_, i) => rows[i].className === "late").map(({ number }) => number);
    const silence = Math.min(...channel.renditions.map(({ cameAt }) => cameAt === null ? 0 : (performance.now() - cameAt) / 1000));
    if (late.length === rows.length && silence > 2 * channel.target) say(`Nothing has arrived for ${silence.toFixed(0)} s: the encoders have stopped, or the browser suspended this page.`);
    else if (late.length > 0) say(`Rendition ${late.join(", ")} is late: there is no new segment without it.`);
    else if (channel.list?.ended) say("The channel has ended.");
    else say("All renditions are arriving.");
}

// How far the newest unit is from this machine's clock, if the channel has dates within a day of it.
function behindClock() {
    const behind = channel.epoch === null ? Infinity : (Date.now() - channel.epoch - channel.end / 1000) / 1000;
    if (Math.abs(behind) > 86400) return "";
    return `The newest unit ends at ${clockOf(channel.end)}, ${Math.abs(behind).toFixed(0)} s ${behind < 0 ? "ahead of" : "behind"} this machine's clock.`;
}

// Shows the newest media at a zoom level, and follows them until another range is chosen.
function setSpan(width) {
    const end = channel.end + 2000000;
    lanes.shownWidth = width;
    lanes.span = width === null ? [channel.start - (end - channel.start) / 30, end] : [end - width, end];
    lanes.follows = true;
}

function paint() {
    if (channel.renditions.length === 0 || channel.end === 0) return;
    if (lanes.follows) setSpan(lanes.shownWidth);
    lanes.draw(clockOf);
    paintFigures();
    paintRenditions();
    $("newest").textContent = behindClock();
    const { table } = channel;
    const counts = `${table?.places ?? 0} places, ${channel.live.length} live segments, ${channel.renditions.length} renditions`;
    $("lanes").setAttribute("aria-label", `The channel from ${clockOf(channel.start)} to ${clockOf(channel.end)}: ${counts}`);
}

// The timeline: dragging selects a range; the wheel and keys zoom and move.
function listenToPicture() {
    const canvas = $("lanes");
    let begun = null;
    canvas.addEventListener("pointerdown", ({ offsetX, pointerId, button }) => {
        if (button !== 0) return;
        begun = lanes.timeAt(offsetX);
        canvas.setPointerCapture(pointerId);
    });
    canvas.addEventListener("pointermove", ({ offsetX }) => {
        if (begun === null) return;
        const here = lanes.timeAt(offsetX);
        lanes.chosen = [Math.max(0, Math.round(Math.min(begun, here))), Math.max(0, Math.round(Math.max(begun, here)))];
        [$("from").value, $("to").value] = lanes.chosen.map(spell);
        showAddress();
        lanes.draw(clockOf);
    });
    // a finger that scrolls the page ends the selection
    for (const name of ["pointerup", "pointercancel"]) canvas.addEventListener(name, () => { begun = null; });
    canvas.addEventListener("wheel", (event) => {
        event.preventDefault();
        zoom(event.deltaY > 0 ? 1.25 : 0.8, lanes.timeAt(event.offsetX));
    }, { passive: false });
    canvas.addEventListener("keydown", (event) => {
        const width = lanes.span[1] - lanes.span[0];
        const move = { ArrowLeft: -width / 8, ArrowRight: width / 8 }[event.key];
        if (move) {
            look(lanes.span.map((time) => time + move));
        } else if (event.key === "+" || event.key === "-") zoom(event.key === "+" ? 0.8 : 1.25);
        else return;
        event.preventDefault();
        paint();
    });
    for (const [id, width] of [["viewAll", null], ["viewSome", 300000000], ["viewLast", 60000000]]) $(id).addEventListener("click", () => { setSpan(width); paint(); });
    $("nearer").addEventListener("click", () => zoom(0.5));
    $("farther").addEventListener("click", () => zoom(2));
    new ResizeObserver(paint).observe(canvas.parentElement);
}

function zoom(by, around = (lanes.span[0] + lanes.span[1]) / 2) {
    const near = lanes.span.map((time) => around + (time - around) * by);
    look(near[1] - near[0] < 1000000 ? [around - 500000, around + 500000] : near);
    paint();
}

// Shows another range, no farther from what is kept than that is long.
function look([from, to]) {
    const [start, end] = [channel.start, channel.end + 2000000];
    const room = end - start + 60000000;
    const width = Math.min(to - from, 2 * room);
    const begins = Math.min(Math.max(from, start - room), end + room - width);
    lanes.follows = false;
    lanes.span = [begins, begins + width];
}

// Shows the times that were entered on the timeline.
function showTyped() {
    try {
        lanes.chosen = [timeOf($("from").value), timeOf($("to").value)];
    } catch {
        lanes.chosen = null;
    }
    showAddress();
    paint();
}

// Shows the viewers' address of the chosen programme, which has the channel's own preferred length.
function showAddress() {
    const list = lanes.chosen && `hls/programme/${lanes.chosen.join("/")}/master.m3u8`;
    $("address").textContent = list ?? "";
    $("address").href = list ? `watch.html?list=${list}` : "#";
}

function showWishes() {
    $("preferredSaid").textContent = `${Number($("preferred").value).toFixed(1)} s`;
    const charge = Number($("charge").value);
    $("chargeSaid").textContent = charge === 0 ? "none" : `${charge.toFixed(1)} s`;
    for (const id of ["preferred", "charge"]) $(id).style.setProperty("--played", `${100 * ($(id).value - $(id).min) / ($(id).max - $(id).min)}%`);
}

async function cut(event) {
    event.preventDefault();
    try {
        const wishes = { from: timeOf($("from").value), to: timeOf($("to").value), preferred: Math.round($("preferred").value * 1000000) };
        if (wishes.from < 0 || wishes.to < 0) throw new Error("The programme begins before the channel's clock.");
        const charge = Math.round($("charge").value * 1000000);
        const job = await channel.cut(charge > 0 ? { ...wishes, charge } : wishes);
        channel.wished.set(job, `${clockOf(wishes.from)} to ${clockOf(wishes.to)}`);
        $("verdict").textContent = `Planning job ${job} ..`;
        const state = await channel.finished(job);
        await showJobs();
        if (/^(cut|none)/.test(state)) await showCertificate(job);
        else $("verdict").textContent = `Job ${job}: ${state}. ${help[state.split(" ")[1]] ?? ""}`;
    } catch (fault) {
        $("verdict").textContent = fault.message;
    }
}

const help = {
    BeforeRecording: "The start is before what is kept: choose a later one.",
    NotYet: "The end isn't recorded yet: choose an earlier one, or wait.",
    AfterRecording: "The end is after the channel's end.",
    BadRange: "The start isn't before the end.",
    BadPreferred: "The preferred length is longer than the target.",
    ProgrammeTooLong: "It has too many places: choose a shorter programme.",
};

// Checks a certificate and draws it.
async function show(bytes, name) {
    $("verdict").textContent = `Checking ${name} ..`;
    const begun = performance.now();
    const turn = ++shows;
    const answer = await checkAside(bytes);
    const { certificate, good } = answer;
    // another certificate was chosen while this one was checked
    if (turn !== shows) return answer;
    $("verdict").textContent = `${name}: ${wordsOf(answer)} (${((performance.now() - begun) / 1000).toFixed(2)} s)`;
    $("verdict").className = good ? "good" : "bad";
    shown = certificate;
    $("prices").hidden = !certificate;
    if (certificate) drawPrices($("prices"), certificate);
    return answer;
}

// Selects a programme on the timeline, and shows it if it is out of view.
function bring(from, to) {
    lanes.chosen = [from, to];
    if (from >= lanes.span[0] && to <= lanes.span[1]) return;
    lanes.follows = false;
    lanes.span = [from - (to - from) / 4, to + (to - from) / 4];
}

async function showCertificate(job) {
    try {
        const { good, certificate } = await show(await load(`${channel.base}job/${job}/certificate.txt`, { limit: CERTIFICATE_LIMIT, cache: "no-store" }), `Job ${job}`);
        lanes.plan = good ? segmentsOf(certificate) : null;
        const { start, prevEnd } = certificate?.table[0] ?? {};
        if (start) bring(start[0], prevEnd[certificate.places - 1]);
        if (start && !channel.wished.has(job)) {
            channel.wished.set(job, lanes.chosen.map(clockOf).join(" to "));
            await showJobs();
        }
        paint();
    } catch (fault) {
        $("verdict").textContent = `Job ${job}'s certificate: ${fault.message}`;
    }
}

// A job's row: its state, its programme where it is known, its files, and what can be done with it.
function rowOf({ number, state }) {
    const isCut = state.startsWith("cut ");
    const lists = channel.renditions.flatMap((rendition) => [`${rendition.number}.m3u8`, `${rendition.number}.mp4`]);
    const files = isCut ? ["master.m3u8", ...lists, "certificate.txt"] : state.startsWith("none") ? ["certificate.txt"] : [];
    const file = (name) => make("a", { href: `${channel.base}job/${number}/${name}`, download: `job${number}_${name}`, textContent: name });
    const button = (text, act) => make("button", { type: "button", textContent: text, onclick: act, ariaLabel: `${text} job ${number}` });
    const doing = make("div", { className: "row" });
    if (isCut) {
        const href = `watch.html?list=${encodeURIComponent(`${channel.base}job/${number}/master.m3u8`)}`;
        doing.append(make("a", { href, target: "_blank", className: "button", textContent: "Play", ariaLabel: `Play job ${number}` }));
    }
    if (files.length > 0) doing.append(button("Certificate", () => showCertificate(number)));
    doing.append(button("Delete", () => remove(number)));
    return make("tr", {}, make("th", { scope: "row", textContent: number }), make("td", { textContent: state }), make("td", { textContent: channel.wished.get(number) ?? "" }),
        make("td", { className: "files" }, ...files.map(file)), make("td", {}, doing));
}

async function showJobs() {
    await channel.lookAtStatus();
    const jobs = await channel.jobs();
    jobsShown = channel.status.jobs;
    $("jobRows").replaceChildren(...jobs.map(rowOf));
    const more = jobsShown - jobs.length;
    const words = jobsShown === 0 ? "There are no jobs." : more > 0 ? `Jobs with numbers that this page doesn't know: ${more}.` : "";
    if (words) $("jobRows").append(make("tr", {}, make("td", { colSpan: 5, className: "pale", textContent: words })));
}

async function remove(number) {
    if (!confirm(`Delete job ${number}? Anyone who is playing it loses it.`)) return;
    lanes.plan = null;
    await channel.remove(number).then(showJobs).catch(sayFault);
}

function sayFault(fault) {
    say(fault.status === 404 ? "The channel hasn't begun: there is no segment yet." : fault instanceof ListFault ? fault.message
        : fault instanceof Refused ? `The origin answers: ${fault.message}.`
        : fault.status ? `The origin answers ${fault.status}.` : "The origin can't be reached. Trying again.");
}

// Repeats some work, and shows what goes wrong.
async function repeat(every, work) {
    for (;;) {
        await work().catch(sayFault);
        await sleep(every);
    }
}

function main() {
    listenToPicture();
    showWishes();
    for (const id of ["preferred", "charge"]) $(id).addEventListener("input", showWishes);
    for (const id of ["from", "to"]) $(id).addEventListener("change", showTyped);
    $("form").addEventListener("submit", cut);
    $("file").addEventListener("change", async ({ target: { files: [file] } }) => {
        if (file && file.size <= CERTIFICATE_LIMIT) await show(new Uint8Array(await file.arrayBuffer()), file.name).catch(sayFault);
        else if (file) $("verdict").textContent = "That file is too large for a certificate.";
    });
    window.addEventListener("resize", () => { if (shown) drawPrices($("prices"), shown); });
    repeat(LOOK_EVERY, async () => {
        await channel.lookAtStatus();
        await channel.lookAtLists();
        // another client may have requested or deleted a job
        if (channel.status.jobs !== jobsShown) await showJobs();
        paint();
    });
    repeat(SURVEY_EVERY, async () => {
        while (channel.live.length === 0) await sleep(1);
        await channel.survey();
        if (channel.status.jobs > 0) await showJobs();
        const zone = Intl.DateTimeFormat().resolvedOptions().timeZone;
        const clock = channel.epoch === null ? "In seconds of the channel's clock: serve has no --epoch." : `In this browser's time zone, ${zone}.`;
        $("timeHelp").textContent = `${clock} The channel keeps media from ${clockOf(channel.start)} on.`;
        $("preferred").max = channel.target;
        showWishes();
        paint();
    });
}

main();
