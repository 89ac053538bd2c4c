// What the pages read of fragmented MP4 (ISO/IEC 14496-12; docs/FORMATS.md): of an init section its tracks and their codecs as browsers
// name them; of a unit when it begins, how long it is and whether it begins with a sync sample. The bytes aren't trusted: a box that
// doesn't fit in its parent is skipped with all that follows it. Nothing here is to be changed for a site.
"use strict";

const viewOf = (bytes) => new DataView(bytes.buffer, bytes.byteOffset, bytes.byteLength);
const nameAt = (view, at) => String.fromCharCode(view.getUint8(at), view.getUint8(at + 1), view.getUint8(at + 2), view.getUint8(at + 3));
const hex = (number, width) => number.toString(16).padStart(width, "0");

// The boxes between two positions, up to the first incomplete one, which is included with `cut`.
export function* boxes(view, from, to, cut = false) {
    while (from + 8 <= to) {
        let [size, header] = [view.getUint32(from), 8];
        if (size === 1 && from + 16 <= to) [size, header] = [Number(view.getBigUint64(from + 8)), 16];
        if (size < header || (!cut && from + size > to)) return;
        yield { name: nameAt(view, from + 4), from, content: from + header, to: from + size };
        from += size;
    }
}

// The first box down a path of names.
function find(view, box, ...path) {
    for (const name of path) {
        box = box && [...boxes(view, box.content, box.to)].find((child) => child.name === name);
    }
    return box;
}

// The profile, tier, compatibility and level of hvcC (ISO/IEC 14496-15 E.3).
function hevc(view, name, at) {
    const first = view.getUint8(at + 1);
    let compatibility = 0;
    for (let bit = 0; bit < 32; bit++) compatibility = compatibility * 2 + ((view.getUint32(at + 2) >>> bit) & 1);
    const constraints = Array.from({ length: 6 }, (_, i) => view.getUint8(at + 6 + i));
    while (constraints.length > 0 && constraints[constraints.length - 1] === 0) constraints.pop();
    return [name, `${["", "A", "B", "C"][first >> 6]}${first & 31}`, hex(compatibility, 1), `${first & 32 ? "H" : "L"}${view.getUint8(at + 12)}`,
        ...constraints.map((byte) => hex(byte, 1).toUpperCase())].join(".");
}

// The object types of esds (ISO/IEC 14496-1 7.2.6): a descriptor is a tag, a length with seven bits per byte, and content.
function mpegAudio(view, box) {
    let at = box.content + 4;
    const descend = () => {
        const tag = view.getUint8(at++);
        while (view.getUint8(at++) & 128);
        return tag;
    };
    if (descend() !== 3) return "mp4a.40.2";
    const flags = view.getUint8(at + 2);
    at += 3 + (flags & 128 ? 2 : 0) + (flags & 32 ? 2 : 0);
    if (flags & 64) at += 1 + view.getUint8(at);
    descend();
    const object = view.getUint8(at);
    at += 13;
    if (object !== 0x40 || at >= box.to || descend() !== 5) return `mp4a.${hex(object, 2)}`;
    const kind = view.getUint8(at) >> 3;
    return `mp4a.40.${kind === 31 ? 32 + ((view.getUint16(at) >> 5) & 63) : kind}`;
}

// A sample entry's codec as RFC 6381 names it, by its configuration box.
function codecOf(view, entry) {
    const children = entry.content + (["mp4a", "ac-3", "ec-3", "Opus", "fLaC", "enca"].includes(entry.name) ? 28 : 78);
    const within = Object.fromEntries([...boxes(view, children, entry.to)].map((box) => [box.name, box]));
    if (within.avcC) return `${entry.name}.${[1, 2, 3].map((i) => hex(view.getUint8(within.avcC.content + i), 2)).join("")}`;
    if (within.hvcC) return hevc(view, entry.name, within.hvcC.content);
    if (within.av1C) {
        const [second, third] = [view.getUint8(within.av1C.content + 1), view.getUint8(within.av1C.content + 2)];
        const depth = third & 64 ? (third & 32 ? "12" : "10") : "08";
        return `av01.${second >> 5}.${String(second & 31).padStart(2, "0")}${third & 128 ? "H" : "M"}.${depth}`;
    }
    if (within.vpcC) {
        const [profile, level, depth] = [4, 5, 6].map((i) => view.getUint8(within.vpcC.content + i));
        return `${entry.name}.${[profile, level, depth >> 4].map((n) => String(n).padStart(2, "0")).join(".")}`;
    }
    if (within.esds) return mpegAudio(view, within.esds);
    return { Opus: "opus", fLaC: "flac" }[entry.name] ?? entry.name;
}

function trackOf(view, trak, defaults) {
    const [header, media] = [find(view, trak, "tkhd"), find(view, trak, "mdia")];
    const [times, handler] = [find(view, media, "mdhd"), find(view, media, "hdlr")];
    const table = find(view, media, "minf", "stbl", "stsd");
    const entry = table && [...boxes(view, table.content + 8, table.to)][0];
    if (!header || !times || !handler || !entry) return null;
    const id = view.getUint32(header.content + (view.getUint8(header.content) === 1 ? 20 : 12));
    const scale = view.getUint32(times.content + (view.getUint8(times.content) === 1 ? 20 : 12));
    const kind = { vide: "video", soun: "audio" }[nameAt(view, handler.content + 8)] ?? "other";
    const size = kind === "video" ? [view.getUint16(entry.content + 24), view.getUint16(entry.content + 26)] : null;
    return { id, scale, kind, codec: codecOf(view, entry), size, defaults: defaults[id] };
}

/// The tracks of an init section, the timing track first, and its type for a source buffer; null if it isn't an init section.
export function readInit(bytes) {
    const view = viewOf(bytes);
    try {
        const moov = [...boxes(view, 0, bytes.length)].find((box) => box.name === "moov");
        const children = [...boxes(view, moov.content, moov.to)];
        const extends_ = find(view, moov, "mvex");
        const defaults = {};
        for (const box of extends_ ? boxes(view, extends_.content, extends_.to) : []) {
            if (box.name === "trex") {
                const [id, , duration, size, flags] = [4, 8, 12, 16, 20].map((at) => view.getUint32(box.content + at));
                defaults[id] = { duration, size, flags };
            }
        }
        const tracks = children.filter((box) => box.name === "trak").map((box) => trackOf(view, box, defaults)).filter((track) => track && track.scale > 0);
        tracks.sort((a, b) => (b.kind === "video") - (a.kind === "video"));
        const kind = tracks[0].kind === "video" ? "video" : "audio";
        return { tracks, kind, type: `${kind}/mp4; codecs="${tracks.map((track) => track.codec).join(", ")}"` };
    } catch {
        return null;
    }
}

// The runs of a track fragment: their duration, and the flags of the first sample.
function runsOf(view, traf, head, defaults) {
    const flags = view.getUint32(head.content) & 0xffffff;
    let at = head.content + 8 + (flags & 1 ? 8 : 0) + (flags & 2 ? 4 : 0);
    const next = (bit, otherwise) => flags & bit ? (at += 4, view.getUint32(at - 4)) : otherwise;
    const usual = { duration: next(8, defaults?.duration), size: next(16, defaults?.size), flags: next(32, defaults?.flags) };
    let [duration, first] = [0, null];
    for (const run of boxes(view, traf.content, traf.to)) {
        if (run.name !== "trun") continue;
        const [has, count] = [view.getUint32(run.content) & 0xffffff, view.getUint32(run.content + 4)];
        let sample = run.content + 8 + (has & 1 ? 4 : 0);
        const firstFlags = has & 4 ? view.getUint32(sample) : null;
        if (has & 4) sample += 4;
        const width = [0x100, 0x200, 0x400, 0x800].filter((bit) => has & bit).length * 4;
        if (sample + count * width > run.to) throw new RangeError("a run continues past its box");
        if (count > 0 && first === null) {
            const before = (has & 0x100 ? 4 : 0) + (has & 0x200 ? 4 : 0);
            first = firstFlags ?? (has & 0x400 ? view.getUint32(sample + before) : usual.flags ?? 0);
        }
        if (has & 0x100) for (let i = 0; i < count; i++) duration += view.getUint32(sample + i * width);
        else duration += count * (usual.duration ?? 0);
    }
    return { duration, first };
}

/// A unit's times by its timing track, in microseconds, from its first bytes, which must include its moof and the header of its mdat.
/// Null if they don't, or if it isn't a unit.
export function readUnit(bytes, init) {
    const view = viewOf(bytes);
    const [{ id, scale, defaults }] = init.tracks;
    try {
        let moof = null;
        for (const box of boxes(view, 0, bytes.length, true)) {
            if (box.name === "moof") moof = box;
            if (box.name !== "mdat" || !moof) continue;
            for (const traf of boxes(view, moof.content, moof.to)) {
                const [head, time] = [find(view, traf, "tfhd"), find(view, traf, "tfdt")];
                if (traf.name !== "traf" || !head || !time || view.getUint32(head.content + 4) !== id) continue;
                const start = view.getUint8(time.content) === 1 ? Number(view.getBigUint64(time.content + 4)) : view.getUint32(time.content + 4);
                const { duration, first } = runsOf(view, traf, head, defaults);
                const [from, to] = [start, start + duration].map((ticks) => Math.floor(ticks / scale * 1000000));
                return { from, to, ticks: [start, start + duration], sync: (first & 0x10000) === 0, bytes: box.to };
            }
            return null;
        }
    } catch { /* a number past the bytes' end */ }
    return null;
}
