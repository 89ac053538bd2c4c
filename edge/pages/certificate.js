// Checks the certificate of a catch-up cut, written from docs/CERTIFICATE.md alone: it shares no code with the program that makes the
// plan or the checker on the server. Pages and node import it. As a worker's script it takes the text's bytes and returns the verdict
// with the certificate to draw. Nothing here is to be changed for a site.
"use strict";

const NUMBER_LIMIT = 2 ** 53; // numbers are below it, so a double holds each of them, and each difference of two, exactly
const LIMITS = { target: 3600, preferred: 3600000000, charge: 3600000000, renditions: 16, places: 16384 };
const FIELDS = ["fragment", "prevEnd", "start", "runIn", "runOut"];
const NOT_PRICED = Infinity;
const [LF, SPACE, ZERO] = [10, 32, 48];

/// What is wrong with a certificate: the rule's name and its numbers.
export class Refusal extends Error {
    constructor(rule, ...numbers) {
        super([rule, ...numbers].join(" "));
        Object.assign(this, { rule, numbers });
    }
}

// The lines of a text, read in order.
class Lines {
    constructor(bytes) {
        Object.assign(this, { bytes, number: 1, from: 0, to: bytes.indexOf(LF) });
    }

    refuse() {
        throw new Refusal("Form", this.number);
    }

    next() {
        this.number++;
        this.from = this.to + 1;
        this.to = this.bytes.indexOf(LF, this.from);
    }

    beginsWith(word) {
        if (this.to - this.from < word.length) return false;
        for (let i = 0; i < word.length; i++) if (this.bytes[this.from + i] !== word.charCodeAt(i)) return false;
        return true;
    }

    is(word) {
        return this.to - this.from === word.length && this.beginsWith(word);
    }

    takeWord(word) {
        if (!this.is(word)) this.refuse();
        this.next();
    }

    // Takes a line of a word and `least` to `most` numbers. Calls `each` with each number and its position in the line.
    takeNumbers(word, least, most, each) {
        if (!this.beginsWith(word)) this.refuse();
        let count = 0;
        for (let at = this.from + word.length; count === 0 || at < this.to; count++) {
            if (count === most || (count > 0 && this.bytes[at++] !== SPACE)) this.refuse();
            const begin = at;
            let value = 0;
            for (let digit; at < this.to && (digit = this.bytes[at] - ZERO) >= 0 && digit <= 9; at++) value = value * 10 + digit;
            if (at === begin || (this.bytes[begin] === ZERO && at - begin > 1) || value >= NUMBER_LIMIT) this.refuse();
            each(value, count);
        }
        if (count < least) this.refuse();
        this.next();
    }

    takeNumber(word, low, high) {
        let found = 0;
        this.takeNumbers(word, 1, 1, (value) => {
            if (value < low || value > high) this.refuse();
            found = value;
        });
        return found;
    }
}

// Reads the table: for each rendition a column of each field, indexed by place.
function readTable(lines, renditions, places) {
    const columns = Array.from({ length: renditions * FIELDS.length }, () => new Float64Array(places));
    for (let place = 0; place < places; place++) {
        lines.takeNumbers("", columns.length, columns.length, (value, at) => { columns[at][place] = value; });
    }
    return Array.from({ length: renditions }, (_, r) => Object.fromEntries(FIELDS.map((name, i) => [name, columns[r * FIELDS.length + i]])));
}

// Reads lines of a word, a place and perhaps a price, with ascending places, up to `end`.
function readMarks(lines, word, width, places, each) {
    let last = -1;
    while (!lines.is("end")) {
        let price = 0;
        lines.takeNumbers(word, width, width, (value, at) => {
            if (at > 0) price = value;
            else if (value <= last || value >= places) lines.refuse();
            else last = value;
        });
        each(last, price);
    }
}

/// Reads a certificate. Throws `Form` with the number of the first malformed line.
export function read(bytes) {
    const lines = new Lines(bytes);
    const charged = lines.is("HLS-CUT-CERTIFICATE 2");
    if (charged) lines.next();
    else lines.takeWord("HLS-CUT-CERTIFICATE 1");
    const found = { rule: charged ? 2 : 1, charge: charged ? lines.takeNumber("rule 2 ", 0, LIMITS.charge) : 0 };
    found.target = lines.takeNumber("target ", 1, LIMITS.target);
    found.preferred = lines.takeNumber("preferred ", 1, LIMITS.preferred);
    const renditions = lines.takeNumber("renditions ", 1, LIMITS.renditions);
    const places = found.places = lines.takeNumber("places ", 2, LIMITS.places);
    found.table = readTable(lines, renditions, places);
    if (lines.is("none")) {
        lines.next();
        found.closed = new Uint8Array(places);
        readMarks(lines, "closed ", 1, places, (place) => { found.closed[place] = 1; });
    } else {
        found.cut = lines.takeNumber("cut ", 0, NUMBER_LIMIT);
        found.plan = [];
        lines.takeNumbers("plan ", 1, Infinity, (value) => {
            if (value >= places) lines.refuse();
            found.plan.push(value);
        });
        found.prices = new Float64Array(places).fill(NOT_PRICED);
        readMarks(lines, "price ", 2, places, (place, price) => { found.prices[place] = price; });
    }
    lines.takeWord("end");
    if (lines.from < bytes.length) lines.refuse();
    return found;
}

/// The length of a segment from place p to place q in a rendition, in microseconds.
export const lengthOf = (spots, p, q) => spots.prevEnd[q] - spots.start[p];

// One field of all renditions, place by place.
function rowsOf(table, places, name) {
    const rows = new Float64Array(places * table.length);
    table.forEach((spots, r) => { for (let p = 0; p < places; p++) rows[p * table.length + r] = spots[name][p]; });
    return rows;
}

// A number for each place; two places have the same number if their values are equal in all renditions.
function namesOf(rows, count, known) {
    return Int32Array.from({ length: rows.length / count }, (_, p) => {
        const name = rows.subarray(p * count, (p + 1) * count).join();
        if (!known.has(name)) known.set(name, known.size);
        return known.get(name);
    });
}

// For each place the first later one whose fragments are all greater: in a sorted table so are those of all places after it.
function firstBehind(table, places) {
    const first = new Int32Array(places);
    for (const { fragment } of table) {
        for (let p = places - 1, next = places; p >= 0; p--) {
            if (p + 1 < places && fragment[p + 1] > fragment[p]) next = p + 1;
            first[p] = Math.max(first[p], next);
        }
    }
    return first;
}

// The allowed steps of a sorted table, prepared for more than a hundred million queries: a certificate may be made to cost the most
// time.
class Steps {
    constructor({ table, places, target }) {
        const known = new Map();
        const [into, out] = ["runIn", "runOut"].map((name) => namesOf(rowsOf(table, places, name), table.length, known));
        const [starts, ends] = ["start", "prevEnd"].map((name) => rowsOf(table, places, name));
        Object.assign(this, { count: table.length, longest: target * 1000000 + 499999, into, out, starts, ends, first: firstBehind(table, places) });
    }

    allows(p, q) {
        if (q < this.first[p] || this.out[p] !== this.into[q]) return false;
        const { count, starts, ends, longest } = this;
        for (let from = p * count, to = q * count, last = to + count; to < last; from++, to++) {
            const length = ends[to] - starts[from];
            if (length <= 0 || length > longest) return false;
        }
        return true;
    }
}

const costOf = ({ table, preferred, charge }, p, q) => Math.abs(lengthOf(table[0], p, q) - preferred) + charge;

function checkTable({ table, places }) {
    for (let place = 0; place < places; place++) {
        const sorted = place === 0 || (table[0].start[place] > table[0].start[place - 1] &&
            table.every((spots) => spots.fragment[place] >= spots.fragment[place - 1]));
        const inOrder = table.every((spots) => spots.prevEnd[place] <= spots.start[place] && spots.runIn[place] <= spots.runOut[place]);
        if (!sorted || !inOrder) throw new Refusal("TableNotSorted", place);
    }
}

function checkPlan(certificate, steps) {
    const { plan, places, prices, cut } = certificate;
    if (plan[0] !== 0 || plan[plan.length - 1] !== places - 1) throw new Refusal("PlanEnds");
    let cost = 0;
    for (let i = 1; i < plan.length; i++) {
        const [p, q] = [plan[i - 1], plan[i]];
        if (p >= q || !steps.allows(p, q)) throw new Refusal("PlanStep", p, q);
        cost += costOf(certificate, p, q);
    }
    if (cost !== cut || prices[places - 1] !== cut) throw new Refusal("PlanCost");
}

// Checks every allowed step from a place with a price, in the order of p, then q. A place without a price has an infinite one.
function checkSteps(certificate, steps, prices) {
    const { table: [{ start, prevEnd }], places, preferred, charge } = certificate;
    const { longest } = steps;
    // No place from q on ends before nearest[q], so a row stops where that is out of reach: ends needn't be ascending.
    const nearest = Float64Array.from(prevEnd);
    for (let q = places - 2; q >= 0; q--) nearest[q] = Math.min(nearest[q], nearest[q + 1]);
    for (let p = 0; p < places; p++) {
        const [price, from] = [prices[p] + charge, start[p]];
        if (price === NOT_PRICED) continue;
        for (let q = p + 1; q < places && nearest[q] - from <= longest; q++) {
            // prices are compared first: most steps break no rule, so it doesn't matter whether they are allowed
            if (prices[q] > price + Math.abs(prevEnd[q] - from - preferred) && steps.allows(p, q)) throw new Refusal("PriceStep", p, q);
        }
    }
}

function checkPrices(certificate, steps) {
    if (certificate.prices[0] !== 0) throw new Refusal("PriceStart");
    checkSteps(certificate, steps, certificate.prices);
}

// The closed set: its places have the price 0 and others an infinite one, so an allowed step that leaves the set breaks `PriceStep`.
function checkClosed(certificate, steps) {
    const { closed, places } = certificate;
    if (!closed[0]) throw new Refusal("PriceStart");
    checkSteps(certificate, steps, Float64Array.from(closed, (is) => is ? 0 : NOT_PRICED));
    if (closed[places - 1]) throw new Refusal("EndReached");
}

/// Throws the first rule that a certificate breaks. Returns what it proves: `cut N` or `none`.
export function check(certificate) {
    checkTable(certificate);
    const steps = new Steps(certificate);
    if (certificate.closed) {
        checkClosed(certificate, steps);
        return "none";
    }
    checkPlan(certificate, steps);
    checkPrices(certificate, steps);
    return `cut ${certificate.cut}`;
}

/// What `hls_origin check` prints for a text, and the certificate if the text is one.
export function answer(bytes) {
    let certificate = null;
    try {
        certificate = read(bytes);
        return { said: check(certificate), good: true, certificate };
    } catch (fault) {
        if (!(fault instanceof Refusal)) throw fault;
        // a refused plan isn't drawn, and may have millions of places
        if (certificate) certificate.plan = [];
        return { said: `refused ${fault.message}`, good: false, certificate };
    }
}

if (typeof WorkerGlobalScope !== "undefined" && globalThis instanceof WorkerGlobalScope) {
    globalThis.onmessage = ({ data }) => globalThis.postMessage(answer(new Uint8Array(data)));
}
