// The operators' timeline of a channel: a lane each for the common places, the live segments, a job's plan and each rendition.
// Times are microseconds of the channel's clock. Nothing here is to be changed for a site.
"use strict";

import { seconds, surface } from "./prices.js";

const LANE = 30;
const GAP = 10;
const AXIS = 26;
const LEFT = 92;
const RIGHT = 12;
const STEPS = [1, 2, 5, 10, 15, 30, 60, 120, 300, 600, 900, 1800, 3600, 7200, 14400, 43200].map((n) => n * 1000000);

/// A timeline of a channel on a canvas: the range that it shows, the chosen range, and the drawing.
export class Lanes {
    constructor(canvas, channel) {
        Object.assign(this, { canvas, channel, span: [0, 1], shownWidth: null, chosen: null, plan: null, follows: true });
    }

    timeAt(x) {
        const [from, to] = this.span;
        return from + (x - LEFT) / (this.canvas.clientWidth - LEFT - RIGHT) * (to - from);
    }

    draw(clockOf) {
        const { channel, span: [from, to] } = this;
        const lanes = 3 + channel.renditions.length;
        Object.assign(this, surface(this.canvas, AXIS + lanes * (LANE + GAP)));
        this.x = (time) => LEFT + (time - from) / (to - from) * (this.width - LEFT - RIGHT);
        this.axis(clockOf);
        this.lane(0, "Places", (y) => this.places(y));
        this.lane(1, "Plan", (y) => this.segments(y, this.plan ?? [], "good"));
        this.lane(2, "Live", (y) => this.segments(y, channel.live, "accent"));
        channel.renditions.forEach((rendition, i) => {
            const name = `${rendition.number} ${rendition.kind === "audio" ? rendition.name : "video"}`;
            this.lane(3 + i, name, (y) => this.rendition(y, rendition, i));
        });
        this.choice(lanes);
    }

    axis(clockOf) {
        const { pen, span: [from, to], width } = this;
        const step = STEPS.find((step) => (width - LEFT) / ((to - from) / step) > 90) ?? STEPS[STEPS.length - 1];
        pen.fillStyle = this.colour("pale");
        pen.strokeStyle = this.colour("line");
        pen.textBaseline = "top";
        pen.textAlign = "center";
        for (let time = Math.ceil(from / step) * step; time <= to; time += step) {
            pen.fillText(clockOf(time), this.x(time), 2);
            pen.beginPath();
            pen.moveTo(this.x(time), AXIS - 6);
            pen.lineTo(this.x(time), this.height);
            pen.stroke();
        }
    }

    lane(number, name, paint) {
        const { pen } = this;
        const y = AXIS + number * (LANE + GAP);
        pen.fillStyle = this.colour("ink");
        pen.textAlign = "left";
        pen.textBaseline = "middle";
        pen.fillText(name.slice(0, 12), 0, y + LANE / 2);
        pen.save();
        pen.beginPath();
        pen.rect(LEFT, y - 4, this.width - LEFT - RIGHT, LANE + 8);
        pen.clip();
        paint(y);
        pen.restore();
    }

    box(from, to, y, height, name, alpha = 1) {
        const { pen } = this;
        pen.globalAlpha = alpha;
        pen.fillStyle = this.colour(name);
        pen.fillRect(this.x(from), y, Math.max(1, this.x(to) - this.x(from)), height);
        pen.globalAlpha = 1;
    }

    isSeen(from, to) {
        return to >= this.span[0] && from <= this.span[1];
    }

    places(y) {
        const { table, renditions: [first] } = this.channel;
        this.box(...this.span, y + LANE / 2, 1, "line");
        const known = new Set();
        for (const time of table?.table[0].start ?? []) {
            known.add(time);
            if (this.isSeen(time, time)) this.box(time, time, y, LANE, "violet");
        }
        const { last } = this;
        for (const { from, sync } of first?.units ?? []) if (sync && from < last && !known.has(from) && this.isSeen(from, from)) this.box(from, from, y, LANE, "warm");
    }

    // The time of the last place in the table.
    get last() {
        const { table } = this.channel;
        return table ? table.table[0].start[table.places - 1] : 0;
    }

    segments(y, segments, name) {
        const { pen } = this;
        segments.forEach(({ from, length, mark }, i) => {
            if (!this.isSeen(from, from + length)) return;
            this.box(from, from + length, y, LANE, name, i % 2 ? 0.55 : 0.35);
            this.box(from, from, y, LANE, mark ? "bad" : name);
            const room = this.x(length) - this.x(0);
            pen.fillStyle = this.colour("ink");
            pen.textAlign = "center";
            if (room > 30) pen.fillText(room > 56 ? seconds(length) : (length / 1000000).toFixed(1), this.x(from + length / 2), y + LANE / 2);
        });
    }

    rendition(y, { units, newest }, number) {
        const { table, renditions: [{ floor, initLength }] } = this.channel;
        const kept = table?.table[number];
        const first = kept?.start[0] ?? units[0]?.from;
        if (first === undefined) return;
        if (floor > initLength) this.trimmed(y, first);
        this.box(first, Math.max(newest?.to ?? 0, first), y, LANE, "raised");
        if (kept) this.keptUnits(y, kept, table.places, units[0]?.from ?? Infinity);
        const isNear = this.x(1000000) - this.x(0) > 12;
        for (const unit of units) {
            if (!this.isSeen(unit.from, unit.to)) continue;
            if (isNear) this.box(unit.from, unit.from, y + 4, LANE - 4, "pale");
            if (unit.sync && isNear) this.box(unit.from, unit.from, y, LANE / 2, "accent");
        }
        units.forEach((unit, i) => { if (unit.gap) this.gap(units[i - 1].to, unit.from, y); });
    }

    // Draws units from before the page was opened, by the table: how many there are between two places, and the gaps.
    keptUnits(y, { fragment, start, prevEnd, runIn, runOut }, places, seenFrom) {
        for (let p = 0; p < places && start[p] < seenFrom; p++) {
            if (runOut[p] > runIn[p]) this.gap(prevEnd[p], start[p], y);
            if (p + 1 === places) break;
            const count = fragment[p + 1] - fragment[p];
            if (runIn[p + 1] > runOut[p]) this.box(start[p], prevEnd[p + 1], y + LANE - 5, 5, "bad", 0.7);
            if (!this.isSeen(start[p], start[p + 1]) || (this.x(start[p + 1]) - this.x(start[p])) / count < 4) continue;
            for (let i = 0; i < count; i++) {
                const time = start[p] + (start[p + 1] - start[p]) * i / count;
                this.box(time, time, y + 4, LANE - 4, "pale", 0.6);
            }
        }
    }

    gap(from, to, y) {
        if (!this.isSeen(from, to)) return;
        this.box(from, to, y, LANE, "page");
        this.box(from, to, y, LANE, "bad", 0.45);
    }

    trimmed(y, until) {
        const { pen } = this;
        const right = Math.min(this.x(until), this.width);
        pen.strokeStyle = this.colour("line");
        for (let x = LEFT - LANE; x < right; x += 8) {
            pen.beginPath();
            pen.moveTo(x, y + LANE);
            pen.lineTo(Math.min(x + LANE, right), y + LANE - (Math.min(x + LANE, right) - x));
            pen.stroke();
        }
        pen.fillStyle = this.colour("pale");
        pen.textAlign = "right";
        if (right - LEFT > 70) pen.fillText("trimmed", right - 8, y + LANE / 2);
    }

    choice(lanes) {
        if (!this.chosen) return;
        const { pen } = this;
        const [from, to] = this.chosen.map((time) => Math.max(this.span[0], Math.min(time, this.span[1])));
        this.box(from, to, AXIS, lanes * (LANE + GAP), "accent", 0.18);
        pen.strokeStyle = this.colour("accent");
        for (const time of [from, to]) {
            pen.beginPath();
            pen.moveTo(this.x(time), AXIS - 4);
            pen.lineTo(this.x(time), this.height);
            pen.stroke();
        }
    }
}
