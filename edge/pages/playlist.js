// Reads the playlists of a channel and of its recordings (docs/FORMATS.md), with segments by paths of their own or by byte ranges.
// A playlist isn't trusted: unless its addresses stay on the page's own host and its numbers within their limits, it is rejected with
// a message. Nothing here is to be changed for a site.
"use strict";

const SILENCE = 15000; // milliseconds without a byte after which a request is aborted
const LIMITS = { bytes: 16777216, segments: 131072, renditions: 256, target: 3600 };

/// A playlist that can't be used, with a message for the viewer.
export class ListFault extends Error {}

/// A response with another status than the expected one.
export class ReplyFault extends Error {
    constructor(status) {
        super(`status ${status}`);
        this.status = status;
    }
}

/// Fetches a whole resource or a range (first and last byte) of it. Rejects a response that is longer than the limit, and gives up
/// if nothing arrives for a while.
export async function load(url, { range = null, limit = LIMITS.bytes, signal = undefined, cache = undefined } = {}) {
    signal?.throwIfAborted();
    const controller = new AbortController();
    let timer = 0;
    const wait = () => {
        clearTimeout(timer);
        timer = setTimeout(() => controller.abort(new Error("nothing arrived")), SILENCE);
    };
    signal?.addEventListener("abort", () => controller.abort(signal.reason), { once: true });
    wait();
    try {
        const headers = range ? { Range: `bytes=${range[0]}-${range[1]}` } : {};
        const reply = await fetch(url, { headers, signal: controller.signal, cache, redirect: "error" });
        if (reply.status !== (range ? 206 : 200)) throw new ReplyFault(reply.status);
        return await wholeOf(reply, limit, wait);
    } finally {
        clearTimeout(timer);
    }
}

/// All bytes of a response, if there aren't more than the limit.
export async function wholeOf(reply, limit, came = () => {}) {
    const pieces = [];
    let length = 0;
    for (const reader = reply.body.getReader(); ;) {
        const { done, value } = await reader.read();
        if (done) break;
        came();
        length += value.length;
        if (length > limit) {
            reader.cancel();
            throw new ListFault("A response is too long.");
        }
        pieces.push(value);
    }
    const bytes = new Uint8Array(length);
    pieces.reduce((at, piece) => { bytes.set(piece, at); return at + piece.length; }, 0);
    return bytes;
}

export const loadText = async (url, options) => new TextDecoder().decode(await load(url, options));

/// The absolute form of an address in a playlist or a query, if it is on the same host as the base.
export function addressOf(text, base) {
    let url = null;
    try {
        url = new URL(text, base);
    } catch {
        throw new ListFault("An address can't be read.");
    }
    if (url.origin !== new URL(base).origin || !/^https?:$/.test(url.protocol)) throw new ListFault("An address is on another host, which this page doesn't contact.");
    // if the page's own address has a password, the browser sends it by itself
    url.username = url.password = "";
    return url.href;
}

function whole(text) {
    if (!/^\d{1,15}$/.test(text)) throw new ListFault("A number in the playlist isn't valid.");
    return Number(text);
}

// Each attribute begins where the previous one ended, so a long line is read only once, whatever it contains.
function attributesOf(text) {
    const found = {};
    for (const [, name, quoted, plain] of text.matchAll(/([A-Z0-9-]+)=(?:"([^"]*)"|([^",]*))(?:, *|$)/gy)) found[name] = quoted ?? plain;
    return found;
}

function linesOf(text) {
    const lines = text.split(/\r?\n/);
    if (lines[0] !== "#EXTM3U") throw new ListFault("The response isn't a playlist.");
    return lines;
}

/// Whether a playlist is a master playlist.
export const isMaster = (text) => /^#EXT-X-STREAM-INF:/m.test(text);

/// The variants of a master playlist, and its audio renditions.
export function readMaster(text, base) {
    const found = { variants: [], audios: [] };
    let variant = null;
    for (const line of linesOf(text)) {
        const attributes = line.startsWith("#EXT-X-") ? attributesOf(line.slice(line.indexOf(":") + 1)) : {};
        if (line.startsWith("#EXT-X-STREAM-INF:")) {
            variant = { bandwidth: whole(attributes.BANDWIDTH ?? ""), resolution: attributes.RESOLUTION ?? "", audio: attributes.AUDIO ?? null };
        } else if (line.startsWith("#EXT-X-MEDIA:") && attributes.TYPE === "AUDIO" && attributes.URI !== undefined) {
            found.audios.push({ url: addressOf(attributes.URI, base), group: attributes["GROUP-ID"], name: attributes.NAME || "audio",
                language: attributes.LANGUAGE ?? "", isDefault: attributes.DEFAULT === "YES" });
        } else if (variant && line && !line.startsWith("#")) {
            found.variants.push({ ...variant, url: addressOf(line, base) });
            variant = null;
        }
        if (found.variants.length + found.audios.length > LIMITS.renditions) throw new ListFault("The playlist has too many renditions.");
    }
    if (found.variants.length === 0) throw new ListFault("The playlist has no stream.");
    return found;
}

// The first and last byte of `n@o`, or of `n`, which follows the range before it.
function rangeOf(text, before) {
    const [length, offset] = text.split("@");
    if (offset === undefined && !before) throw new ListFault("A byte range has no offset.");
    const first = offset === undefined ? before[1] + 1 : whole(offset);
    if (whole(length) === 0) throw new ListFault("A byte range is empty.");
    return [first, first + whole(length) - 1];
}

function microseconds(text) {
    const found = /^(\d{1,10})(?:\.(\d{1,20}))?(?:,|$)/.exec(text);
    if (!found) throw new ListFault("A segment's length isn't a number.");
    return Number(found[1]) * 1000000 + Number((found[2] ?? "").slice(0, 6).padEnd(6, "0"));
}

/// A media playlist: each segment with its number, its length in microseconds, its address, and the tags that precede it.
export function readMedia(text, base) {
    const found = { sequence: 0, target: 0, ended: false, segments: [] };
    let [map, range, date, mark, length, before] = [null, null, null, false, null, null];
    for (const line of linesOf(text)) {
        const value = line.slice(line.indexOf(":") + 1);
        if (line.startsWith("#EXT-X-MEDIA-SEQUENCE:")) found.sequence = whole(value);
        else if (line.startsWith("#EXT-X-TARGETDURATION:")) found.target = whole(value);
        else if (line.startsWith("#EXT-X-MAP:")) {
            const { URI, BYTERANGE } = attributesOf(value);
            map = { url: addressOf(URI ?? "", base), range: BYTERANGE === undefined ? null : rangeOf(BYTERANGE, null) };
        } else if (line.startsWith("#EXT-X-KEY:") && !value.startsWith("METHOD=NONE")) throw new ListFault("The stream is encrypted.");
        else if (line.startsWith("#EXT-X-BYTERANGE:")) range = value;
        else if (line.startsWith("#EXT-X-PROGRAM-DATE-TIME:")) date = Date.parse(value);
        else if (line.startsWith("#EXT-X-DISCONTINUITY") && !line.startsWith("#EXT-X-DISCONTINUITY-SEQUENCE")) mark = true;
        else if (line.startsWith("#EXTINF:")) length = microseconds(value);
        else if (line.startsWith("#EXT-X-ENDLIST")) found.ended = true;
        else if (line && !line.startsWith("#")) {
            if (length === null || !map) throw new ListFault("A segment has no length or no init section.");
            const url = addressOf(line, base);
            before = range === null ? null : rangeOf(range, before);
            found.segments.push({ sequence: found.sequence + found.segments.length, url, range: before, map, length, date: Number.isNaN(date) ? null : date, mark });
            if (found.segments.length > LIMITS.segments) throw new ListFault("The playlist has too many segments.");
            [range, date, mark, length] = [null, null, false, null];
        }
    }
    if (found.target < 1) throw new ListFault("The playlist has no target duration.");
    if (found.target > LIMITS.target) throw new ListFault("The playlist's target duration is too long.");
    return found;
}
