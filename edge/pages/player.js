// The player of the viewers' page: loads segments of a channel or a recording and passes them to the browser by Media Source Extensions.
// The first video rendition's playlist determines where each segment is on the page's own timeline, so gaps in the recording, a restarted
// channel and seconds without a network leave no hole in playback. Nothing here is specific to a site.
"use strict";

import { Line, Source } from "./line.js";
import { readInit, readUnit } from "./mp4.js";
import { ListFault, ReplyFault, isMaster, load, loadText, readMaster } from "./playlist.js";

const AHEAD = 30; // seconds of media that are loaded ahead of the playback position,
const BEHIND = 30; // and kept before it
const MEDIA_LIMIT = 268435456;
const INIT_LIMIT = 16777216;
const KEPT_MISSES = 300;
const TRIES = 3; // for a segment that is listed but can't be loaded
const SHUNNED = 60; // seconds for which a failed rendition isn't used
const MISPLACED = 1.5; // seconds: at one place the renditions' times differ by less
const FIRST_RATE = 3000000; // bits a second: the assumed throughput until it is measured
const STANDS = 3; // seconds without a new picture after which a message says so
const STUCK = 6; // .. after which media that can't be shown are skipped, if there are more

const sleep = (seconds) => new Promise((done) => { setTimeout(done, 1000 * seconds); });
const once = (target, name) => new Promise((done) => { target.addEventListener(name, done, { once: true }); });

// Waits the given time, or until this device is online again.
const sleepOrOnline = (seconds) => new Promise((done) => {
    let timer = 0;
    const end = () => {
        clearTimeout(timer);
        window.removeEventListener("online", end);
        done();
    };
    timer = setTimeout(end, 1000 * seconds);
    window.addEventListener("online", end);
});

/// A fault that a retry can't fix, with a message for the viewer.
class Hopeless extends Error {}

// One kind of media: its renditions, and the source buffer that is filled from one of them at a time.
class Track {
    constructor(player, choices, leads) {
        Object.assign(this, { player, leads, choice: 0, buffer: null, init: null, initKey: "", fetching: null, filling: null, emptied: false, misses: new Map(), shunned: new Map() });
        this.choices = choices.map((choice) => ({ ...choice, source: new Source(choice.url) }));
    }

    get source() { return this.choices[this.choice].source; }

    // Whether a segment is buffered, or never will be.
    has(entry) {
        if (entry.gone || this.misses.get(entry) >= TRIES || this.player.bad.has(entry.sequence)) return true;
        const [{ buffered }, middle] = [this.buffer, entry.at + entry.length / 2];
        for (let i = 0; i < buffered.length; i++) if (buffered.start(i) <= middle && middle < buffered.end(i)) return true;
        return false;
    }

    // The first missing segment from the playback position on. Until the leading track knows a run's shift, the other track waits.
    next() {
        const { line, at, ahead, shifts } = this.player;
        for (let i = line.indexAt(at); i < line.entries.length && line.entries[i].at < at + ahead; i++) {
            const entry = line.entries[i];
            if (!this.has(entry)) return this.leads || shifts.has(entry.run) ? entry : null;
        }
        return null;
    }

    // The rendition's segment of an entry's number, once its playlist has it. One with another date is from a playlist before a restart.
    async segmentOf(entry) {
        const isOf = ({ date }) => date === null || entry.date === null || Math.abs(date - entry.date) < 1000 * MISPLACED;
        for (const age of [Infinity, 1, 0]) {
            const { segments } = await this.source.fresh(age);
            const segment = segments[entry.sequence - (segments[0]?.sequence ?? 0)];
            if (segment && isOf(segment)) return segment;
            if (age === 1) await sleep(1);
        }
        throw new ReplyFault(404);
    }

    // Loads an init section, and appends it to the buffer if there is one yet.
    async begin(map) {
        const key = `${map.url} ${map.range}`;
        if (key === this.initKey) return;
        const bytes = await load(map.url, { range: map.range, limit: INIT_LIMIT });
        const init = readInit(bytes);
        if (!init) throw new ListFault("The stream's beginning can't be read.");
        if (!MediaSource.isTypeSupported(init.type)) throw new Hopeless(`This browser can't play ${init.tracks.map((track) => track.codec).join(" with ")}. Another browser or device may.`);
        if (this.buffer && init.type !== this.init.type) this.buffer.changeType(init.type);
        Object.assign(this, { init, initKey: key, initBytes: bytes });
        this.choices[this.choice].resolution ||= init.tracks[0].size?.join("x") ?? "";
        if (this.buffer) await this.append(bytes);
    }

    open(source) {
        this.buffer = source.addSourceBuffer(this.init.type);
        this.buffer.addEventListener("error", () => { if (this.filling) this.player.bad.add(this.filling.sequence); });
    }

    // Fills the buffer until the player is closed.
    async feed() {
        await this.append(this.initBytes);
        while (!this.player.closed) {
            const entry = await this.afterEmptying();
            if (!entry) {
                await this.player.change();
                continue;
            }
            try {
                await this.fill(entry);
                this.player.well(this);
            } catch (fault) {
                await this.player.trouble(fault, this, entry);
            }
        }
    }

    // After a choice of another rendition, drops the old one's media from the end of the current segment on.
    async afterEmptying() {
        if (this.emptied) {
            this.emptied = false;
            const { line, at } = this.player;
            const seen = line.entries[line.indexAt(at)];
            await this.remove(seen && this.leads ? seen.at + seen.length : at + 0.5, Infinity);
        }
        return this.next();
    }

    async fill(entry) {
        this.filling = entry;
        this.fetching = new AbortController();
        const { signal } = this.fetching;
        if (this.leads) this.player.adapt(this);
        const segment = await this.segmentOf(entry);
        await this.begin(segment.map);
        const begun = performance.now();
        const bytes = await load(segment.url, { range: segment.range, limit: MEDIA_LIMIT, signal });
        this.player.measure(bytes.length, performance.now() - begun);
        this.place(entry, bytes);
        await this.append(bytes);
        // if its own middle isn't buffered now, loading it again won't help
        if (!this.has(entry)) this.miss(entry, TRIES);
        await this.forget();
    }

    // Sets the offset from the segment's media times to the line.
    place(entry, bytes) {
        const { shifts } = this.player;
        const unit = readUnit(bytes, this.init);
        if (!unit) throw new ListFault("A segment doesn't match the playlist.");
        const shift = entry.at - unit.from / 1000000;
        if (this.leads && (!shifts.has(entry.run) || this.misses.has(entry))) shifts.set(entry.run, shift);
        if (Math.abs(shifts.get(entry.run) - shift) > MISPLACED) {
            // the number belongs to other media: the playlist is old
            this.source.loadedAt = -Infinity;
            throw new ReplyFault(404);
        }
        this.buffer.timestampOffset = shifts.get(entry.run);
    }

    async append(bytes) {
        for (let tried = 0; ; tried++) {
            try {
                this.buffer.appendBuffer(bytes);
                break;
            } catch (fault) {
                if (fault.name !== "QuotaExceededError" || tried === 2) throw fault;
                await this.makeRoom(tried);
            }
        }
        await once(this.buffer, "updateend");
    }

    // The browser's buffer is full: loads less from now on.
    async makeRoom(tried) {
        const { player } = this;
        player.ahead = Math.max(4, player.ahead / 2);
        await this.remove(0, player.at - (tried === 0 ? 5 : 1));
        await this.remove(player.at + player.ahead, Infinity);
    }

    async remove(from, to) {
        if (to <= from || this.buffer.buffered.length === 0) return;
        this.buffer.remove(Math.max(0, from), to);
        await once(this.buffer, "updateend");
    }

    async forget() {
        const old = this.player.at - BEHIND;
        if (this.buffer.buffered.length > 0 && this.buffer.buffered.start(0) < old - 10) await this.remove(0, old);
    }

    miss(entry, times = 1) {
        this.misses.set(entry, (this.misses.get(entry) ?? 0) + times);
        if (this.misses.size > KEPT_MISSES) this.misses.delete(this.misses.keys().next().value);
    }

    // The best rendition for a throughput among those that haven't failed, or among all if all have.
    best(rate) {
        const now = performance.now();
        const all = this.choices.map(({ bandwidth }, choice) => ({ bandwidth, choice })).sort((a, b) => a.bandwidth - b.bandwidth);
        const sound = all.filter(({ choice }) => !(this.shunned.get(choice) > now));
        const from = sound.length > 0 ? sound : all;
        return (from.filter(({ bandwidth }) => bandwidth <= rate).pop() ?? from[0]).choice;
    }

    // Stops using a failed rendition for a while, or for good. Returns whether there is another one.
    shun(seconds) {
        this.shunned.set(this.choice, performance.now() + 1000 * seconds);
        const failed = this.choice;
        this.choice = this.best(this.player.rate || FIRST_RATE);
        return this.choice !== failed;
    }

    choose(choice) {
        this.choice = choice;
        this.emptied = true;
        this.fetching?.abort();
        this.player.wake();
    }
}

// Loads, places and shows segments; `say` shows a message. `bad` has the numbers of segments that the browser can't decode.
export class Player {
    constructor(video, say, bad) {
        Object.assign(this, { video, say, bad, line: new Line(), tracks: [], shifts: new Map(), ahead: AHEAD, goal: null, rate: 0, automatic: true });
        Object.assign(this, { faults: new Map(), begun: false, closed: false, waiting: [], stand: { at: -1, since: 0 }, rest: { at: -1, since: 0 } });
    }

    // The playback position, or the one that is being loaded.
    get at() { return this.goal ?? this.video.currentTime; }
    get isLive() { return !this.line.ended; }

    wake() {
        for (const done of this.waiting.splice(0)) done();
    }

    change() {
        return new Promise((done) => { this.waiting.push(done); });
    }

    // Opens a playlist, at a time of a recording or live.
    async open(url, from) {
        const { variants, audios } = await this.persist(async () => {
            const text = await loadText(url, { cache: "no-cache" });
            return isMaster(text) ? readMaster(text, url) : { variants: [{ url, bandwidth: 0, resolution: "", audio: null }], audios: [] };
        });
        const heard = audios.filter(({ group }) => group === variants[0].audio).sort((a, b) => b.isDefault - a.isDefault);
        this.tracks = [new Track(this, variants, true), ...(heard.length > 0 ? [new Track(this, heard, false)] : [])];
        this.first = this.tracks[0].choices[0].source;
        await this.persist(async () => {
            const list = await this.first.fresh(0);
            if (list.segments.length === 0) throw new ReplyFault(404);
            this.line.take(list);
        });
        this.tracks[0].choice = this.tracks[0].best(FIRST_RATE);
        for (const track of this.tracks) await this.persist(async () => track.begin((await track.source.fresh(5)).segments[0].map), track);
        const source = this.source = new MediaSource();
        this.video.src = URL.createObjectURL(source);
        await once(source, "sourceopen");
        URL.revokeObjectURL(this.video.src);
        // browsers require all buffers before the first one gets data
        for (const track of this.tracks) track.open(source);
        // the duration is set before, since afterwards one of the buffers is always busy at first
        this.show();
        this.goal = this.isLive ? this.line.live : from;
        for (const work of [...this.tracks.map((track) => track.feed()), this.follow()]) work.catch((fault) => this.fail(fault));
        this.timer = setInterval(() => this.tick(), 250);
    }

    close() {
        this.closed = true;
        clearInterval(this.timer);
        for (const track of this.tracks) track.fetching?.abort();
    }

    // Repeats some work until it succeeds.
    async persist(work, who = this) {
        while (!this.closed) {
            try {
                const found = await work();
                this.well(who);
                return found;
            } catch (fault) {
                await this.trouble(fault, who, null);
            }
        }
        throw new Hopeless("");
    }

    // Follows the first rendition's playlist while it grows.
    async follow() {
        for (let pause = this.line.target; this.isLive && !this.closed;) {
            await sleep(this.line.doubted ? 1 : pause);
            const end = this.line.end;
            const found = await this.persist(async () => this.line.take(await this.first.fresh(0)));
            if (found === "anew") this.bad.clear();
            if (found === "anew") this.say("The channel was restarted.", 8);
            if (found === "lost") this.say("A part was missed while the connection was lost.", 8);
            // RFC 8216 6.3.4: half a target duration if the playlist hasn't changed
            pause = this.line.end > end ? this.line.target : this.line.target / 2;
            this.wake();
        }
    }

    // Sets the line's duration and seekable range in the browser.
    show() {
        if (this.source?.readyState !== "open" || this.tracks.some((track) => track.buffer.updating)) return;
        if (this.isLive) {
            if (this.source.duration !== Infinity) this.source.duration = Infinity;
            this.source.setLiveSeekableRange(this.line.start, this.line.end);
        } else if (!(Math.abs(this.source.duration - this.line.end) < 1)) {
            // not less than what is buffered
            const ends = this.tracks.map(({ buffer: { buffered } }) => buffered.length > 0 ? buffered.end(buffered.length - 1) : 0);
            this.source.duration = Math.max(this.line.end, ...ends);
        }
    }

    seek(time) {
        const target = Math.max(this.line.start, Math.min(time, this.isLive ? this.line.live : this.line.end - 0.05));
        this.show();
        this.goal = target;
        for (const { filling, fetching } of this.tracks) {
            if (filling && (filling.at + filling.length < target || filling.at > target + 10)) fetching?.abort();
        }
        this.tick();
    }

    // Several times a second: starts playback, skips what can't be loaded, ends the stream.
    tick() {
        const { video: { buffered }, line } = this;
        this.show();
        const ranges = [...Array(buffered.length).keys()].map((i) => [buffered.start(i), buffered.end(i)]);
        const last = ranges.length > 0 ? ranges[ranges.length - 1][1] : 0;
        // a recording's media may end a little before its playlist says
        if (this.goal !== null && !this.isLive && Math.abs(line.end - last) < 0.5) this.goal = Math.min(this.goal, last - 0.15);
        const { at } = this;
        // browsers stop a little before the end of what is buffered
        const rest = this.stood() > 0.7 ? 1 : 0.1;
        const range = ranges.find(([, end]) => end > at + rest);
        const isStuck = this.unmoved() > STUCK;
        if (range && range[0] <= at + 0.05) this.arrive(isStuck ? Math.min(at + 0.5, range[1] - 0.05) : at, isStuck);
        else if (range && (this.isLoadedUpTo(range[0]) || (isStuck && this.tracks.every((track) => !track.next())))) this.arrive(range[0] + 0.01, true);
        else if (!range && at < line.start - 1) {
            this.say("That part isn't available any more. Playback continues with the earliest part that is.", 8);
            this.goal = line.start;
        }
        const isWhole = !this.isLive && this.tracks.every((track) => !track.buffer.updating && track.has(line.last) && !track.next());
        if (isWhole && this.source.readyState === "open") this.source.endOfStream();
        this.sayStanding();
        this.wake();
    }

    // For how many seconds playback has waited for data.
    stood() {
        const { video: { currentTime, paused, readyState, ended }, stand } = this;
        if (currentTime !== stand.at || paused || ended || readyState > 2 || this.goal !== null) this.stand = { at: currentTime, since: performance.now() };
        return (performance.now() - this.stand.since) / 1000;
    }

    // For how many seconds the position hasn't moved, whatever the browser says it has buffered.
    unmoved() {
        const { video: { currentTime, paused, ended }, rest } = this;
        if (currentTime !== rest.at || paused || ended || this.goal !== null) this.rest = { at: currentTime, since: performance.now() };
        return (performance.now() - this.rest.since) / 1000;
    }

    // Explains a frozen picture if nothing has failed, as long as it is frozen.
    sayStanding() {
        const stood = this.stood();
        if (stood < 0.3) this.well(this.video);
        if (stood < STANDS || this.faults.size > 0) return;
        this.faults.set(this.video, 1);
        const isAllSeen = this.isLive && this.at > this.line.end - 1;
        this.say(isAllSeen ? "The channel isn't sending anything new at the moment. Playback resumes by itself when it does." : "Loading ..");
    }

    arrive(time, jumps = false) {
        if (this.goal === null && !jumps) return;
        if (!this.begun) this.say("");
        this.goal = null;
        this.begun = true;
        if (Math.abs(this.video.currentTime - time) > 0.001) this.video.currentTime = time;
    }

    // Whether everything between here and a later time is buffered, or never will be.
    isLoadedUpTo(time) {
        const { line, at } = this;
        const between = line.entries.slice(line.indexAt(at)).filter((entry, i, { length }) => i < length && entry.at + entry.length / 2 < time);
        return between.every((entry) => this.tracks.every((track) => track.has(entry)));
    }

    measure(bytes, milliseconds) {
        const rate = 8000 * bytes / Math.max(milliseconds, 5);
        this.rate = this.rate === 0 ? rate : 0.7 * this.rate + 0.3 * rate;
    }

    // Chooses the best rendition for the measured throughput, more cautiously while little is buffered.
    adapt(track) {
        if (!this.automatic || this.rate === 0) return;
        const { buffered } = track.buffer;
        const left = buffered.length > 0 ? buffered.end(buffered.length - 1) - this.at : 0;
        track.choice = track.best(this.rate * (left > 8 ? 0.8 : 0.5));
    }

    well(who) {
        if (this.faults.delete(who) && this.faults.size === 0) this.say("");
    }

    // Shows what is wrong, and waits before the next try.
    async trouble(fault, who, entry) {
        if (fault.name === "AbortError" || this.closed) return;
        if (fault instanceof Hopeless && who.choices?.length > 1 && who.shun(Infinity)) {
            if (!who.leads || !this.automatic) this.say(fault.message, 8);
            this.automatic ||= who.leads;
            return;
        }
        if (fault instanceof Hopeless || ["NotSupportedError", "InvalidStateError", "QuotaExceededError"].includes(fault.name)) throw fault;
        if (who.leads && this.automatic) who.shun(SHUNNED);
        if (entry && (fault instanceof ListFault || (fault instanceof ReplyFault && fault.status < 429))) who.miss(entry);
        const times = (this.faults.get(who) ?? 0) + 1;
        this.faults.set(who, times);
        if (entry && who.misses.get(entry) >= TRIES) this.say("A part is missing and is skipped.", 8);
        else if (!entry || times > 1) this.say(wordsFor(fault, this.begun));
        await sleepOrOnline(Math.min(times, 5));
    }

    fail(fault) {
        if (this.closed) return;
        this.close();
        this.say(fault instanceof Hopeless ? fault.message : "The browser couldn't play this.", Infinity);
        this.video.dispatchEvent(new CustomEvent("hopeless"));
    }
}

const statusWords = {
    403: "You have no access to this.",
    409: "This recording isn't finished yet. Playback starts by itself when it is.",
    410: "This isn't available any more.",
    429: "The server is busy. Trying again.",
};

function wordsFor(fault, begun) {
    if (fault instanceof ListFault) return fault.message;
    if (!(fault instanceof ReplyFault)) {
        return navigator.onLine ? "There is no connection to the server. Trying again." : "This device is offline. Playback resumes by itself when it is online.";
    }
    if (fault.status === 404 && begun) return "The channel isn't available at the moment. Playback resumes by itself when it is.";
    if (fault.status === 404) return "Nothing is on air here yet. Playback starts by itself as soon as something is.";
    return statusWords[fault.status] ?? `The server can't answer at the moment (${fault.status}). Trying again.`;
}
