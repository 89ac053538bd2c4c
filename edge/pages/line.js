// The timeline of the viewers' page: the position of each segment of a channel or a recording, whichever playlists arrive. Segments of
// all renditions share one numbering, so the first rendition's playlist is enough. Nothing here is to be changed for a site.
"use strict";

import { loadText, readMedia } from "./playlist.js";

/// RFC 8216 6.3.3: a player starts at least this many target durations before the end of a live playlist.
const TARGETS_FROM_LIVE = 3;
const KEPT_ENTRIES = 300; // entries of the line that are kept before the playlist's first one
const FAR = 100000; // segments: a playlist that is this far ahead belongs to another channel

/// A media playlist, loaded again when it is requested and too old.
export class Source {
    constructor(url) {
        Object.assign(this, { url, list: null, loadedAt: -Infinity, loading: null });
    }

    // The playlist, not older than the given number of seconds.
    async fresh(age) {
        if (this.list && (this.list.ended || performance.now() - this.loadedAt < age * 1000)) return this.list;
        this.loading ??= loadText(this.url, { cache: "no-cache" }).then((text) => {
            this.list = readMedia(text, this.url);
            this.loadedAt = performance.now();
            return this.list;
        }).finally(() => { this.loading = null; });
        return this.loading;
    }
}

// Whether an entry was made from a segment: by its date if it has one (its address may change at an edge), else by its bytes.
const isSame = (segment, entry) => segment.date !== null && entry.date !== null ? segment.date === entry.date
    : segment.url === entry.url && String(segment.range) === String(entry.range);

// The segments to play of a playlist that replaces another one: those that weren't seen, from where a player starts.
function startOf(list, last) {
    const seen = last.date === null ? -Infinity : last.date + 1000 * last.length - 100;
    const unseen = list.segments.filter(({ date }) => date === null || date >= seen);
    const fresh = unseen.length > 0 ? unseen : list.segments.slice(-1);
    let from = fresh.length;
    for (let left = TARGETS_FROM_LIVE * list.target; from > 0 && left > 0; left -= fresh[from].length / 1000000) from--;
    return list.ended ? fresh : fresh.slice(from);
}

/// The timeline. A run is a part without a break: in it media times and the line differ by a constant, the run's shift.
export class Line {
    constructor() {
        Object.assign(this, { entries: [], run: 0, listed: 0, begun: 0, doubted: false, target: 6, ended: false });
    }

    get last() { return this.entries[this.entries.length - 1]; }
    get end() { return this.last ? this.last.at + this.last.length : 0; }
    get start() { return this.entries[this.listed]?.at ?? 0; }
    // The position of a live viewer.
    get live() { return Math.max(this.start, this.end - TARGETS_FROM_LIVE * this.target); }

    // The entry of a sequence number in the current playlist.
    entryOf(sequence) {
        const first = this.entries[this.begun];
        return first && sequence >= first.sequence ? this.entries[this.begun + sequence - first.sequence] : undefined;
    }

    // The index in `entries` of the segment at a time, or of the end.
    indexAt(time) {
        let [low, high] = [0, this.entries.length];
        while (low < high) {
            const middle = (low + high) >> 1;
            if (this.entries[middle].at + this.entries[middle].length > time) high = middle;
            else low = middle + 1;
        }
        return low;
    }

    dateAt(time) {
        const entry = this.entries[Math.min(this.indexAt(time), this.entries.length - 1)];
        return entry?.date == null ? null : entry.date + 1000 * (time - entry.at);
    }

    // Takes a later playlist. Returns "" normally, "anew" if the channel was restarted, "lost" if segments were removed before they were seen.
    take(list) {
        const { segments } = list;
        Object.assign(this, { target: list.target, ended: list.ended });
        if (segments.length === 0) return "";
        const common = segments.find((segment) => this.entryOf(segment.sequence));
        if (common && isSame(common, this.entryOf(common.sequence))) {
            this.doubted = false;
            this.keepFrom(this.entries.indexOf(this.entryOf(common.sequence)));
            for (const segment of segments) if (segment.sequence > this.last.sequence) this.add(segment, segment.mark);
            return "";
        }
        if (!this.last) {
            for (const segment of segments) this.add(segment, this.last && segment.mark);
            return "";
        }
        const ahead = segments[0].sequence - this.last.sequence;
        const found = !common && ahead > 0 && ahead < FAR ? "lost" : "anew";
        // a single older playlist may be a cached one from an edge
        if (ahead <= 0 && !this.doubted) {
            this.doubted = true;
            return "";
        }
        this.doubted = false;
        const fresh = startOf(list, this.last);
        this.keepFrom(this.entries.length);
        this.begun = this.entries.length;
        for (const segment of fresh) this.add(segment, segment === fresh[0] || segment.mark);
        return found;
    }

    add({ sequence, length, date, url, range }, breaks) {
        if (breaks) this.run++;
        this.entries.push({ sequence, run: this.run, at: this.end, length: length / 1000000, date, url, range, gone: false });
    }

    // Marks the entries before one as gone: they aren't listed any more, so they can't be loaded.
    keepFrom(index) {
        for (let i = Math.min(this.listed, index); i < index; i++) this.entries[i].gone = true;
        this.listed = index;
        const old = this.listed - 2 * KEPT_ENTRIES;
        if (old < 0 || this.begun === this.entries.length) return;
        this.entries.splice(0, old + KEPT_ENTRIES);
        this.listed -= old + KEPT_ENTRIES;
        this.begun = Math.max(0, this.begun - old - KEPT_ENTRIES);
    }
}
