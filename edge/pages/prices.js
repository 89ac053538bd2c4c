// Checks a certificate and draws its prices, for both pages: the verdict in words, and a chart of the places by time and price, with
// the plan as a line. The check runs in a worker, so a large certificate doesn't block the page. Nothing here is to be changed for a
// site.
"use strict";

import { lengthOf } from "./certificate.js";

export const CERTIFICATE_LIMIT = 67108864;
const NARROW = 480;
const MARGIN = { left: 64, right: 16, top: 14, bottom: 28 };

const meanings = {
    Form: ([line]) => `Line ${line} is malformed.`,
    TableNotSorted: ([place]) => `Place ${place} is out of order.`,
    PlanEnds: () => "The plan doesn't go from the first place to the last.",
    PlanStep: ([p, q]) => `The plan goes from place ${p} to place ${q}, which isn't an allowed step.`,
    PlanCost: () => "The plan's cost, the printed cost and the last price aren't equal.",
    PriceStart: () => "The first place's price isn't 0, or it isn't in the closed set.",
    PriceStep: ([p, q]) => `The step from place ${p} to place ${q} is cheaper than the prices say.`,
    EndReached: () => "The end can be reached, though the certificate says that it can't.",
};

export const seconds = (microseconds, digits = 2) => `${(microseconds / 1000000).toFixed(digits)} s`;

/// What a verdict means, for somebody who hasn't read docs/CERTIFICATE.md.
export function wordsOf({ said, good, certificate }) {
    if (!good) {
        const [rule, ...numbers] = said.split(" ").slice(1);
        return `This certificate proves nothing. ${meanings[rule](numbers)} (${said})`;
    }
    if (said === "none") return `Checked here: these ${certificate.places} places have no cut; every way ends before the last place.`;
    const parts = certificate.plan.length - 1;
    const charge = certificate.rule === 2 ? `, with ${seconds(certificate.charge)} for each segment` : "";
    return `Checked here: of all cuts at these ${certificate.places} places none costs less than this one, ${seconds(certificate.cut, 3)}${charge}, in ${parts === 1 ? "one segment" : `${parts} segments`}.`;
}

// The page's current colours, each looked up once per drawing.
function palette() {
    const style = getComputedStyle(document.documentElement);
    const known = new Map();
    return (name) => {
        if (!known.has(name)) known.set(name, style.getPropertyValue(`--${name}`).trim());
        return known.get(name);
    };
}

/// Checks a certificate's bytes in a worker.
export function checkAside(bytes) {
    return new Promise((done, failed) => {
        const worker = new Worker(new URL("certificate.js", import.meta.url), { type: "module" });
        const end = (finish) => (event) => { worker.terminate(); finish(event); };
        worker.onmessage = end(({ data }) => done(data));
        worker.onerror = end(() => failed(new Error("The check didn't run.")));
        worker.postMessage(bytes);
    });
}

// Sizes a canvas to its width on the page, at the screen's resolution.
export function surface(canvas, height) {
    const [width, ratio] = [canvas.clientWidth || NARROW, window.devicePixelRatio || 1];
    [canvas.width, canvas.height] = [Math.round(width * ratio), Math.round(height * ratio)];
    canvas.style.height = `${height}px`;
    const pen = canvas.getContext("2d");
    pen.scale(ratio, ratio);
    pen.font = "13px system-ui, 'DejaVu Sans', sans-serif";
    return { pen, width, height, colour: palette() };
}

// The smallest round step that fits into a span at most the given number of times.
const stepOf = (span, most) => [1, 2, 5].flatMap((n) => Array.from({ length: 16 }, (_, e) => n * 10 ** e)).sort((a, b) => a - b).find((step) => span / step <= most) ?? span;

/// Draws the prices of a certificate's places over time: the plan's as a line, the others as dots.
export function drawPrices(canvas, certificate) {
    const { pen, width, height, colour } = surface(canvas, 220);
    const { table: [{ start, prevEnd }], prices, closed, places } = certificate;
    const plan = certificate.plan?.length <= places ? certificate.plan : [];
    const [from, to] = [start[0], Math.max(start[places - 1], prevEnd[places - 1], start[0] + 1)];
    const most = prices ? prices.reduce((most, price) => price < Infinity ? Math.max(most, price) : most, 1) : 1;
    const x = (p) => MARGIN.left + (start[p] - from) / (to - from) * (width - MARGIN.left - MARGIN.right);
    const y = (price) => height - MARGIN.bottom - price / most * (height - MARGIN.top - MARGIN.bottom);
    pen.lineWidth = 1;
    pen.textBaseline = "middle";
    for (let price = 0, step = stepOf(most, 4); prices && price <= most; price += step) {
        pen.strokeStyle = colour("line");
        pen.beginPath();
        pen.moveTo(MARGIN.left, y(price));
        pen.lineTo(width - MARGIN.right, y(price));
        pen.stroke();
        pen.fillStyle = colour("pale");
        pen.textAlign = "right";
        pen.fillText(seconds(price, 1), MARGIN.left - 8, y(price));
    }
    pen.fillStyle = colour("pale");
    pen.textAlign = "left";
    pen.fillText("0 s", MARGIN.left, height - 10);
    pen.textAlign = "right";
    pen.fillText(`${seconds(to - from, 1)} of programme`, width - MARGIN.right, height - 10);
    for (let p = 0; p < places; p++) {
        const reached = prices ? prices[p] < Infinity : closed[p];
        pen.fillStyle = colour(reached ? "violet" : "bad");
        pen.fillRect(x(p) - 2, (prices && reached ? y(prices[p]) : y(0)) - 2, 4, 4);
    }
    pen.strokeStyle = pen.fillStyle = colour("good");
    pen.lineWidth = 2;
    pen.beginPath();
    plan.forEach((p, i) => pen[i === 0 ? "moveTo" : "lineTo"](x(p), y(prices[p])));
    pen.stroke();
    for (const p of plan) {
        pen.beginPath();
        pen.arc(x(p), y(prices[p]), 4, 0, 7);
        pen.fill();
    }
}

/// A plan's segments: where they begin and end in the first rendition, in microseconds.
export const segmentsOf = ({ table, plan = [] }) => plan.slice(1).map((q, i) => ({ from: table[0].start[plan[i]], length: lengthOf(table[0], plan[i], q) }));
