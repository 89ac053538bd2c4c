// What the operators' page knows of a channel, from the origin's own routes alone (docs/HTTP.md): its status, its playlists, the first
// bytes of each unit, its metrics, and the table of places in the certificate of a programme of all that is kept. Times are
// microseconds of the channel's clock. Nothing here is to be changed for a site.
"use strict";

import { read } from "./certificate.js";
import { readInit, readUnit } from "./mp4.js";
import { ReplyFault, isMaster, readMaster, readMedia, wholeOf } from "./playlist.js";

const HEAD = 8192; // bytes that include the boxes before a large unit's samples; of small units many are read at once
const MANY = 65536;
const KEPT_UNITS = 6000;
const FIRST_SEGMENTS = 12; // segments of the live playlist whose units are read when the page opens
const PROBES = 96;
const SEARCHES = 5; // attempts to find the first unit that is kept
const SILENCE = 15000; // milliseconds after which a request is aborted
const EVERY = 70; // milliseconds between two requests: an edge limits an operator's rate
const AT_ONCE = 10; // requests that may exceed that rate

let due = 0;
/// Sends a request when it is its turn.
export async function asked(path, options = {}) {
    const now = performance.now();
    due = Math.max(due, now - AT_ONCE * EVERY) + EVERY;
    if (due > now) await new Promise((done) => { setTimeout(done, due - now); });
    const controller = new AbortController();
    const timer = setTimeout(() => controller.abort(new Error("nothing came")), SILENCE);
    try {
        return await fetch(path, { cache: "no-store", signal: controller.signal, ...options });
    } finally {
        clearTimeout(timer);
    }
}

async function textOf(path, limit = 16777216) {
    const reply = await asked(path);
    if (reply.status === 200) return new TextDecoder().decode(await wholeOf(reply, limit));
    await reply.body?.cancel();
    throw new ReplyFault(reply.status);
}

// Requests a range of a recording. Returns its bytes, none if it is past the end, and the recording's length.
async function ask(url, first, last) {
    const reply = await asked(url, { headers: { Range: `bytes=${first}-${last}` } });
    const total = Number(/\/(\d+)$/.exec(reply.headers.get("Content-Range") ?? "")?.[1] ?? NaN);
    if (reply.status === 206) return { bytes: await wholeOf(reply, last - first + 1), total };
    await reply.body?.cancel();
    if (reply.status !== 416) throw new ReplyFault(reply.status);
    return { bytes: new Uint8Array(0), total };
}

// The position of the first moof in some bytes, or -1: its name follows its size, and its first box is always a mfhd of 16 bytes.
const MOOF = [..."moof\0\0\0\x10mfhd"].map((letter) => letter.charCodeAt(0));
function placeOfMoof(bytes) {
    for (let at = bytes.indexOf(MOOF[0], 4); at >= 0; at = bytes.indexOf(MOOF[0], at + 1)) {
        if (MOOF.every((byte, i) => bytes[at + i] === byte)) return at - 4;
    }
    return -1;
}

// One rendition: what is kept of it, and its newest units in order.
class Rendition {
    constructor(base, number, said) {
        Object.assign(this, { base, number, ...said, url: `${base}media/${number}.mp4` });
        Object.assign(this, { init: null, initLength: 0, floor: null, kept: null, next: null, total: 0, units: [], cameAt: null });
    }

    get newest() { return this.units[this.units.length - 1]; }
    get gaps() { return this.units.filter((unit) => unit.gap).length; }
    get codec() { return this.init?.tracks.map((track) => track.codec).join(", ") ?? ""; }

    // Reads the init section, whose length is in the live playlist, as are the positions of segments.
    async look(list) {
        if (this.init || list.segments.length === 0) return;
        const { map } = list.segments[0];
        this.initLength = map.range[1] + 1;
        this.init = readInit((await ask(this.url, 0, map.range[1])).bytes);
        [this.next] = list.segments.slice(-FIRST_SEGMENTS)[0].range;
    }

    // Reads the heads of the units that have arrived.
    async follow() {
        if (!this.init) return;
        for (let reads = 0; reads < PROBES; reads++) {
            const width = this.units.length > 0 && this.newest.bytes > MANY ? HEAD : MANY;
            const { bytes, total } = await ask(this.url, this.next, this.next + width - 1);
            this.total = total;
            const before = this.next;
            for (let at = 0; at < bytes.length;) {
                const unit = readUnit(bytes.subarray(at), this.init);
                if (!unit) break;
                at += unit.bytes;
                this.add({ ...unit, offset: before + at - unit.bytes });
                this.next = before + at;
            }
            if (this.next === before || this.next >= total) return;
        }
    }

    add(unit) {
        const last = this.newest;
        this.units.push({ ...unit, gap: last !== undefined && last.ticks[1] !== unit.ticks[0] });
        if (this.units.length > KEPT_UNITS) this.units.splice(0, KEPT_UNITS / 4);
        this.cameAt = performance.now();
    }

    async isThere(offset) {
        try {
            return (await ask(this.url, offset, offset)).bytes.length > 0;
        } catch (fault) {
            if (fault.status === 410) return false;
            throw fault;
        }
    }

    // The start of the first unit that is kept, or of one soon after it; null if none is found. Units are trimmed during the search, so
    // it is repeated.
    async firstKept() {
        for (let searches = 0; searches < SEARCHES; searches++) {
            this.floor = await this.findFloor();
            try {
                return await this.firstFrom(this.floor);
            } catch (fault) {
                if (fault.status !== 410) throw fault;
            }
        }
        return null;
    }

    // A position shortly after the first byte that is kept: found in growing steps, then by bisection between what is gone (410) and
    // what isn't.
    async findFloor() {
        let low = this.floor ?? this.initLength;
        if (await this.isThere(low)) return low;
        let high = this.next;
        for (let step = MANY; low + step < high; step *= 4) {
            if (await this.isThere(low + step)) high = low + step;
            else low += step;
        }
        while (high - low > MANY) {
            const middle = Math.floor((low + high) / 2);
            if (await this.isThere(middle)) high = middle;
            else low = middle;
        }
        return high;
    }

    // The start of the first unit whose moof follows a position in the recording.
    async firstFrom(place) {
        for (let reads = 0; reads < PROBES; reads++) {
            const { bytes } = await ask(this.url, place, place + MANY - 1);
            const at = placeOfMoof(bytes);
            if (at > 0) place += at;
            else if (at === 0) return readUnit(bytes, this.init)?.from ?? null;
            else if (bytes.length < MANY) return null;
            else place += MANY - MOOF.length - 4;
        }
        return null;
    }
}

/// A refusal, with the origin's text.
export class Refused extends Error {}

/// The channel, polled repeatedly.
export class Channel {
    constructor(base) {
        Object.assign(this, { base });
        this.forget();
    }

    // Resets to the state before the first request. `wished` has the programmes of the jobs that this page requested.
    forget() {
        Object.assign(this, { renditions: [], status: {}, before: null, list: null, live: [], target: 6, epoch: null, table: null });
        Object.assign(this, { full: null, newestJob: 0, wished: new Map() });
    }

    async lookAtStatus() {
        const text = await textOf(`${this.base}status`, 4096);
        const status = Object.fromEntries(text.trim().split("\n").map((line) => line.split(" ")).map(([name, number]) => [name, Number(number)]));
        const run = (await textOf(`${this.base}hls/run`, 4096)).trim();
        // the version never decreases, and a channel keeps its run; otherwise an empty channel has begun
        if (status.version < this.status.version || run !== (this.run ?? run)) this.forget();
        this.run = run;
        this.before ??= { version: status.version, at: performance.now() };
        this.status = status;
    }

    // Log entries per second since the page was opened.
    get pace() {
        const passed = (performance.now() - this.before.at) / 1000;
        return passed > 20 ? (this.status.version - this.before.version) / passed : null;
    }

    async lookAtLists() {
        if (this.renditions.length === 0) await this.findRenditions();
        const listOf = async ({ number }) => readMedia(await textOf(`${this.base}live/${number}.m3u8`), this.base);
        for (const rendition of this.renditions) if (!rendition.init) await rendition.look(await listOf(rendition));
        await Promise.all(this.renditions.map((rendition) => rendition.follow()));
        const list = await listOf(this.renditions[0]);
        const isAnew = list.sequence < this.list?.sequence || this.renditions.some(({ total, next }) => total < next);
        if (isAnew) return this.forget();
        this.list = list;
        this.target = list.target;
        this.place();
    }

    async findRenditions() {
        const text = await textOf(`${this.base}live/master.m3u8`);
        if (!isMaster(text)) return;
        const { variants, audios } = readMaster(text, this.base);
        const numberOf = ({ url }) => Number(/(\d+)\.m3u8$/.exec(url)?.[1] ?? NaN);
        const found = [...variants.map((said) => ({ ...said, kind: "video", name: "" })), ...audios.map((said) => ({ ...said, kind: "audio" }))];
        this.renditions = found.filter((said) => numberOf(said) >= 0).map((said) => new Rendition(this.base, numberOf(said), said)).sort((a, b) => a.number - b.number);
    }

    // The live segments on the channel's clock, by the first rendition's units.
    place() {
        const [{ units }] = this.renditions;
        const byOffset = new Map(units.map((unit) => [unit.offset, unit]));
        this.live = this.list.segments.flatMap(({ range, length, mark, date }) => {
            const unit = byOffset.get(range[0]);
            if (unit && date !== null) this.epoch = date - Math.floor(unit.from / 1000);
            return unit ? [{ from: unit.from, length, mark }] : [];
        });
    }

    get end() { return Math.max(0, ...this.renditions.map(({ newest }) => newest?.to ?? 0)); }
    get start() { return this.table?.table[0].start[0] ?? this.live[0]?.from ?? this.end; }

    // Reads the version at which the log is full, and how much is kept of each rendition.
    async lookAtMetrics() {
        const text = await textOf(`${this.base}metrics`);
        const numberOf = (row) => Number(new RegExp(`^${row} (\\d+)$`, "m").exec(text)?.[1] ?? NaN);
        this.full = numberOf("hls_log_entries_max") || null;
        for (const rendition of this.renditions) {
            const kept = numberOf(`hls_rendition_kept_bytes\\{rendition="${rendition.number}",[^}]*\\}`);
            rendition.kept = Number.isNaN(kept) ? null : kept;
        }
    }

    // The number of entries that the log has left; a new log continues the count of the previous one.
    get left() { return this.full === null ? null : this.full - this.status.version; }

    // Reads the places of all that is kept.
    async survey() {
        await this.lookAtMetrics();
        const last = this.live[this.live.length - 1];
        if (!last) return;
        const to = last.from + last.length;
        // the number of a new job leads to earlier jobs
        if (this.status.jobs > 0 && this.newestJob === 0) await this.remove(await this.cut({ from: last.from, to }));
        const kept = await this.renditions[0].firstKept();
        const newest = Math.max(...this.renditions.map(({ units: [first] }) => first?.from ?? 0));
        // once something was trimmed, the media kept begin with a place; before that the first place is a little later
        const later = kept === null ? null : kept + this.target * 1000000;
        const starts = [kept, later, newest, this.live[0].from].filter((time) => time !== null && time < to);
        for (let i = 0; i < starts.length; i++) {
            const { refusal, certificate } = await this.tableFrom(starts[i], to);
            if (certificate) this.table = certificate;
            if (certificate) return;
            // more places than a table holds: tries the later half
            if (refusal?.includes("ProgrammeTooLong")) starts.splice(i + 1, 0, Math.floor((starts[i] + to) / 2));
        }
    }

    // The certificate of a programme, or the origin's refusal.
    async tableFrom(from, to) {
        const reply = await asked(`${this.base}hls/programme/${from}/${to}/certificate.txt`);
        const bytes = await wholeOf(reply, 67108864);
        return reply.status === 200 ? { certificate: read(bytes) } : { refusal: new TextDecoder().decode(bytes), certificate: null };
    }

    // Requests a catch-up recording. Returns its job's number.
    async cut(wishes) {
        const reply = await asked(`${this.base}catchup?${new URLSearchParams(wishes)}`, { method: "POST" });
        const said = await reply.text();
        if (reply.status !== 202) throw new Refused(said.trim() || `status ${reply.status}`);
        this.newestJob = Number(/^job (\d+)/.exec(said)[1]);
        return this.newestJob;
    }

    async job(number) {
        const reply = await asked(`${this.base}job/${number}`);
        const state = (await reply.text()).trim();
        return reply.status === 200 ? { number, state } : null;
    }

    async finished(number) {
        for (let pause = 50; ; pause = Math.min(1000, pause * 2)) {
            const found = await this.job(number);
            if (!found || !/^(waiting|running)/.test(found.state)) return found?.state ?? "refused NotFound";
            await new Promise((done) => { setTimeout(done, pause); });
        }
    }

    remove(number) {
        return asked(`${this.base}job/${number}`, { method: "DELETE", keepalive: true });
    }

    // The existing jobs: those after the newest known one, and from that one down.
    async jobs() {
        const found = [];
        const look = async (number) => {
            const job = await this.job(number);
            if (job) found.push(job);
            return job !== null;
        };
        for (let next = this.newestJob + 1; this.newestJob > 0 && found.length < this.status.jobs && await look(next); next++) this.newestJob = next;
        found.reverse();
        for (let number = this.newestJob - found.length, probes = 0; number > 0 && found.length < this.status.jobs && probes < PROBES; number--, probes++) await look(number);
        return found;
    }
}
