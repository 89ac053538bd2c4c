// Whether a channel is well, by its origin's metrics, its list at the edge and what hls_ingest reports: the rules, limits and words of
// `hls_channel status` (deploy/hls_tools/health.py). A change of one is a change of both. Nothing here is to be changed for a site.
"use strict";

const STILL = 3; // targets after which players have emptied their buffers
const BEHIND = 12; // seconds that a rendition may lag the others
const FULL = 0.9; // share of its memory limit that an origin may use

/// The values of metrics in Prometheus' text format, each by its rendition's name; by "" if it has none.
export function readMetrics(text) {
    const found = new Map();
    for (const [, metric, labels, value] of text.matchAll(/^(\w+)(?:\{([^}\n]*)\})? ([0-9]{1,20}(?:\.[0-9]{1,20})?(?:e-[0-9]{1,3})?)$/gm)) {
        const name = /\bname="([^"]*)"/.exec(labels ?? "")?.[1] ?? "";
        if (!/^(?:[A-Za-z0-9_][A-Za-z0-9_-]{0,31})?$/.test(name)) continue;
        if (!found.has(metric)) found.set(metric, new Map());
        found.get(metric).set(name, Number(value));
    }
    return found;
}

const valueOf = (metrics, name) => metrics.get(name)?.get("") ?? 0;
const valuesOf = (metrics, name) => [...metrics.get(name) ?? []];
const list = (names) => names.join(", ");
const are = (names) => names.length > 1 ? "are" : "is";

// Renditions that have not begun, that lag the others, and that are filled.
function lookAtEncoders(health, metrics, before) {
    const begun = valuesOf(metrics, "hls_rendition_begun");
    const missing = begun.filter(([, value]) => value === 0).map(([name]) => name);
    if (missing.length > 0) {
        const who = missing.length === begun.length ? "no encoder has sent anything" : `${list(missing)} ${missing.length > 1 ? "have" : "has"} not begun`;
        health.faults.push(`${who}: there is no live list yet`);
        return;
    }
    const finished = metrics.get("hls_rendition_finished");
    const ends = valuesOf(metrics, "hls_rendition_end_seconds");
    const newest = Math.max(...ends.map(([, end]) => end));
    const behind = ends.filter(([name]) => !finished?.get(name)).map(([name, end]) => [name, newest - end]);
    health.lag = Math.max(0, ...behind.map(([, by]) => by));
    const late = behind.filter(([, by]) => by > BEHIND).map(([name]) => name);
    if (late.length > 0) health.faults.push(`${list(late)} ${are(late)} ${health.lag.toFixed(0)} s behind, and the lists of all renditions wait`);
    health.filled = before === null ? 0 : Math.max(0, valueOf(metrics, "hls_filled_fragments_total") - valueOf(before, "hls_filled_fragments_total"));
    if (health.filled > 0) health.faults.push("a rendition is filled: nothing comes from the encoder");
}

function lookAtMemory(health, metrics) {
    const limit = valueOf(metrics, "process_virtual_memory_max_bytes");
    health.memory = limit > 0 ? valueOf(metrics, "process_virtual_memory_bytes") / limit : null;
    if (health.memory > FULL) health.faults.push(`memory is ${(100 * health.memory).toFixed(0)}% of its limit`);
}

function lookAtLists(health, metrics) {
    health.still = valueOf(metrics, "hls_list_still_seconds");
    const limit = STILL * (metrics.get("hls_list_target_seconds")?.get("") ?? 6);
    if (health.still > limit && !valueOf(metrics, "hls_channel_ended")) health.faults.push(`the lists have been still for ${health.still.toFixed(0)} s`);
}

function lookAtJournal(health, metrics) {
    health.journal = valueOf(metrics, "hls_journal_lost") ? "lost" : valueOf(metrics, "hls_journal_sync_age_seconds") > 0 ? "kept" : "none";
    if (health.journal === "lost") health.faults.push("the journal is lost");
}

function lookAtInput(health, input) {
    if (input === null) return;
    health.input = valueOf(input, "hls_ingest_input_up") ? "shown" : "gone";
    const since = new Date(1000 * valueOf(input, "hls_ingest_input_since_seconds")).toLocaleTimeString("en-GB");
    if (health.input === "gone") health.faults.push(`input gone since ${since}`);
}

/// A channel's health: its numbers, null where nothing answered, and its faults, the one first that is to be corrected first. What was
/// asked is a status and a text for each of `origin` (its metrics), `list` (a live list at the edge), `standby` and `input` (null if there
/// is none), and `before`, the metrics of a while ago.
export function healthOf({ origin, list: said, standby, input, before }) {
    const health = { still: null, lag: null, filled: null, journal: "", memory: null, input: "", faults: [] };
    const metrics = origin.status === 200 ? readMetrics(origin.text) : null;
    if (origin.status === 401 || origin.status === 403) health.faults.push("this user may not operate it");
    else if (origin.text.includes("refused Memory")) health.faults.push("the origin is out of memory, and refuses encoders and viewers");
    else if (metrics === null) health.faults.push("the origin doesn't answer");
    // without a segment there is no list at the origin either
    if (metrics !== null && said.status !== 200 && (said.status !== 404 || valueOf(metrics, "hls_segments") > 0)) {
        health.faults.push(said.status === 0 ? "the edge doesn't answer" : `the edge answers ${said.status}`);
    }
    if (metrics !== null) {
        lookAtLists(health, metrics);
        lookAtEncoders(health, metrics, before);
    }
    lookAtInput(health, input?.status === 200 ? readMetrics(input.text) : null);
    if (metrics !== null) {
        lookAtMemory(health, metrics);
        lookAtJournal(health, metrics);
    }
    if (standby !== null && standby.status !== 200) health.faults.push("its other origin doesn't answer");
    return { ...health, metrics };
}
