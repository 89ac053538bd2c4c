// The page of all channels: whether each one is well, by its own origin and a list at this edge. `operate_channels` beside the page names
// the channels of this user (docs/EDGE.md). A channel with a host of its own is only linked, since the page requests nothing of another
// host. Nothing here is to be changed for a site.
"use strict";

import { asked } from "./operate_channel.js";
import { healthOf } from "./operate_health.js";
import { addressOf, wholeOf } from "./playlist.js";

const LOOK_EVERY = 5; // seconds
const FILLED_FOR = 60; // seconds for which fillers count
const LIMIT = 1048576;

const $ = (id) => document.getElementById(id);
const sleep = (seconds) => new Promise((done) => { setTimeout(done, 1000 * seconds); });
const seconds = (value) => value === null ? "" : `${value.toFixed(value < 10 ? 1 : 0)} s`;
const percent = (value) => value === null ? "" : `${(100 * value).toFixed(0)} %`;

const make = (name, properties = {}, ...children) => {
    const element = Object.assign(document.createElement(name), properties);
    element.append(...children);
    return element;
};

// A response's status and text; status 0 if there is none.
async function answerOf(path) {
    try {
        const reply = await asked(path);
        return { status: reply.status, text: new TextDecoder().decode(await wholeOf(reply, LIMIT)) };
    } catch {
        return { status: 0, text: "" };
    }
}

// One channel: its row, where it is at this edge (null if on another host), and the metrics of the last minute.
class Channel {
    constructor({ name, place, origins }) {
        const isHere = place.startsWith("/") || place === location.host;
        const page = isHere ? addressOf(`${place.startsWith("/") ? place.replace(/\/$/, "") : ""}/operate.html`, location.origin) : `https://${place}/operate.html`;
        Object.assign(this, { name, origins, base: isHere ? new URL("./", page).href : null, before: [], health: null });
        this.cells = Array.from({ length: 7 }, () => make("td"));
        this.row = make("tr", {}, make("th", { scope: "row" }, make("a", { href: page, textContent: name })), ...this.cells);
        this.paint();
    }

    async look() {
        if (this.base === null) return;
        const origin = await answerOf(`${this.base}origin/1/metrics`);
        const list = await answerOf(`${this.base}hls/0.m3u8`);
        const standby = this.origins > 1 ? await answerOf(`${this.base}origin/2/status`) : null;
        const input = await answerOf(`${this.base}operate_input`);
        const now = performance.now();
        this.before = this.before.filter(({ at }) => now - at < 1000 * FILLED_FOR);
        this.health = healthOf({ origin, list, standby, input, before: this.before[0]?.metrics ?? null });
        if (this.health.metrics) this.before.push({ at: now, metrics: this.health.metrics });
        this.paint();
    }

    get isWell() { return this.health === null || this.health.faults.length === 0; }

    paint() {
        const { still = null, lag = null, filled = null, input = "", journal = "", memory = null, faults = [] } = this.health ?? {};
        const state = this.base === null ? "on another host" : this.health === null ? ".." : faults.join("; ") || "well";
        [state, seconds(still), seconds(lag), filled ?? "", input, journal, percent(memory)].forEach((text, i) => { this.cells[i].textContent = text; });
        this.row.className = this.isWell ? "" : "late";
    }
}

// The channels of this user; only the page's own one for a user whom the edge doesn't know by name.
async function channelsOfUser() {
    const { status, text } = await answerOf(addressOf("operate_channels", location.href));
    if (status === 200) return JSON.parse(text).map((one) => new Channel(one));
    const place = new URL("./", location.href).pathname;
    return [new Channel({ name: place.replaceAll("/", "") || location.host, place, origins: 1 })];
}

function paintSummary(channels) {
    const ill = channels.filter((channel) => !channel.isWell).map(({ name }) => name);
    const words = ill.length > 0 ? `Not well: ${ill.join(", ")}.` : "All channels are well.";
    if ($("words").textContent !== words) $("words").textContent = words;
    document.title = ill.length > 0 ? `(${ill.length}) All channels` : "All channels";
    $("clock").textContent = new Date().toLocaleTimeString("en-GB");
}

const channels = await channelsOfUser();
$("channels").replaceChildren(...channels.map(({ row }) => row));
for (;;) {
    const begun = performance.now();
    await Promise.all(channels.map((channel) => channel.look()));
    paintSummary(channels);
    await sleep(Math.max(1, LOOK_EVERY - (performance.now() - begun) / 1000));
}
