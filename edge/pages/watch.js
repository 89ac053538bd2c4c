// The viewers' page: the controls around the player (player.js), which plays a live channel or a recording. Without Media Source
// Extensions (iPhone) the browser's own player is used. ?list= names another playlist on the same host; by default it is
// hls/master.m3u8 beside the page. Nothing here is to be changed for a site.
"use strict";

import { Player } from "./player.js";
import { addressOf, load } from "./playlist.js";
import { CERTIFICATE_LIMIT, checkAside, drawPrices, wordsOf } from "./prices.js";

const MOST_RESTARTS = 10; // without a picture between them

const $ = (id) => document.getElementById(id);
const sleep = (seconds) => new Promise((done) => { setTimeout(done, 1000 * seconds); });

let player = null;
const video = $("video");
let saidUntil = 0;

function say(words, seconds = Infinity) {
    if (words === "" && saidUntil !== Infinity && performance.now() < saidUntil) return;
    saidUntil = seconds === Infinity ? Infinity : performance.now() + 1000 * seconds;
    if (seconds !== Infinity) setTimeout(() => { if (performance.now() >= saidUntil - 50) say(""); }, 1000 * seconds);
    $("words").textContent = words;
    $("noteText").textContent = words;
    $("note").hidden = words === "" || (seconds !== Infinity && player?.begun) || video.readyState > 2;
}

const digits = (number) => String(Math.floor(number)).padStart(2, "0");
const spell = (seconds) => `${seconds >= 3600 ? `${Math.floor(seconds / 3600)}:` : ""}${digits(seconds / 60 % 60)}:${digits(seconds % 60)}`;
const clockOf = (date) => new Date(date).toLocaleTimeString("en-GB");

// A time on the line as text: the date's time of day, if there are dates, and the distance from live or from the beginning.
function wordsAt(time) {
    const { line } = player;
    const date = line.dateAt(time);
    const far = player.isLive ? `${spell(Math.max(0, line.end - time))} behind live` : `${spell(time)} of ${spell(line.end)}`;
    return date === null ? far : `${clockOf(date)}, ${far}`;
}

function paint() {
    const { line, begun } = player;
    const slider = $("seek");
    const [from, to] = [line.start, Math.max(line.start + 0.1, player.isLive ? line.live : line.end)];
    if (document.activeElement !== slider || !slider.dragged) {
        [slider.min, slider.max] = [from, to];
        slider.value = player.at;
    }
    slider.style.setProperty("--played", `${100 * (slider.value - from) / (to - from)}%`);
    slider.setAttribute("aria-valuetext", wordsAt(Number(slider.value)));
    const date = begun ? line.dateAt(player.at) : null;
    $("time").textContent = date === null ? "" : clockOf(date);
    const behind = line.end - player.at;
    const isAtLive = begun && player.isLive && player.at > line.live - 2;
    $("live").hidden = !player.isLive;
    $("proof").hidden = player.isLive || !begun;
    $("live").classList.toggle("now", isAtLive);
    $("live").setAttribute("aria-label", isAtLive ? "Live" : "Go to live");
    $("where").textContent = !begun ? "" : player.isLive ? (isAtLive ? "" : `-${spell(behind)}`) : `${spell(player.at)} / ${spell(line.end)}`;
    document.title = player.isLive ? "Live" : "Recording";
    $("title").textContent = document.title;
    $("bar").classList.toggle("paused", video.paused);
    $("play").setAttribute("aria-label", video.paused ? "Play" : "Pause");
    $("bar").classList.toggle("mute", video.muted);
    $("mute").setAttribute("aria-pressed", String(video.muted));
    if (video.readyState > 2) $("note").hidden = true;
    nameChoices();
}

// Fills a menu with the names of renditions; hidden if there is no choice.
function offer(kind, names) {
    const select = $(`${kind}s`);
    $(`${kind}Label`).hidden = names.length < 2;
    if (select.options.length !== names.length) select.replaceChildren(...names.map((name, i) => new Option(name, i)));
    names.forEach((name, i) => { if (select.options[i].text !== name) select.options[i].text = name; });
}

function nameChoices() {
    const [picture, sound] = player.tracks;
    const nameOf = ({ resolution, bandwidth }) => [resolution.replace(/^\d+x(\d+)$/, "$1p"), `${(bandwidth / 1e6).toFixed(1)} Mbit/s`].filter((word) => word).join(", ");
    const pictures = picture?.choices.map(nameOf) ?? [];
    offer("video", pictures.length > 1 ? [`Automatic${player.automatic ? `: ${pictures[picture.choice]}` : ""}`, ...pictures] : []);
    if (player.automatic && $("videos").selectedIndex > 0) $("videos").selectedIndex = 0;
    offer("audio", sound?.choices.map(({ name, language }) => language && language !== name ? `${name} (${language})` : name) ?? []);
    if (sound && $("audios").selectedIndex !== sound.choice) $("audios").selectedIndex = sound.choice;
}

async function play() {
    try {
        await video.play();
    } catch (fault) {
        if (fault.name !== "NotAllowedError" || video.muted) return;
        video.muted = true;
        video.play().catch(() => {});
        say("This browser turned the sound off. Press M to turn it on.", 8);
    }
}

const actions = {
    play: () => (video.paused ? play() : video.pause()),
    back: () => player.seek(player.at - 10),
    forth: () => player.seek(player.at + 10),
    start: () => player.seek(player.line.start),
    end: () => player.seek(player.line.end),
    live: () => { player.seek(player.line.end); play(); },
    mute: () => { video.muted = !video.muted; },
    louder: () => { video.volume = Math.min(1, video.volume + 0.1); },
    quieter: () => { video.volume = Math.max(0, video.volume - 0.1); },
    full: () => (document.fullscreenElement ? document.exitFullscreen() : $("player").requestFullscreen()),
    again: () => location.reload(),
};
const keys = { " ": "play", k: "play", ArrowLeft: "back", ArrowRight: "forth", Home: "start", End: "end", m: "mute", f: "full", ArrowUp: "louder", ArrowDown: "quieter" };

function listen() {
    for (const id of ["play", "back", "forth", "live", "mute", "full", "again"]) $(id).addEventListener("click", actions[id]);
    document.addEventListener("keydown", (event) => {
        const action = keys[event.key.length === 1 ? event.key.toLowerCase() : event.key];
        const own = event.target.closest("select, #volume, summary") || (event.key === " " && event.target.closest("button"));
        if (!action || own || event.ctrlKey || event.altKey || event.metaKey || !player.source) return;
        event.preventDefault();
        actions[action]();
    });
    const slider = $("seek");
    slider.addEventListener("input", () => { slider.dragged = true; player.seek(Number(slider.value)); });
    slider.addEventListener("change", () => { slider.dragged = false; });
    slider.addEventListener("pointermove", ({ offsetX }) => {
        const time = Number(slider.min) + Math.max(0, Math.min(1, offsetX / slider.clientWidth)) * (slider.max - slider.min);
        $("tip").textContent = wordsAt(time);
        $("tip").hidden = false;
        $("tip").style.left = `${Math.max(0, Math.min(offsetX, slider.clientWidth))}px`;
    });
    slider.addEventListener("pointerleave", () => { $("tip").hidden = true; });
    $("volume").addEventListener("input", () => { video.volume = Number($("volume").value); video.muted = false; });
    video.addEventListener("volumechange", () => { $("volume").value = video.volume; });
    video.addEventListener("hopeless", () => { $("again").hidden = $("note").hidden = false; });
    $("videos").addEventListener("change", ({ target }) => {
        player.automatic = target.value === "0";
        if (!player.automatic) player.tracks[0].choose(Number(target.value) - 1);
    });
    $("audios").addEventListener("change", ({ target }) => player.tracks[1].choose(Number(target.value)));
    video.addEventListener("click", actions.play);
    // the browser pauses a tab that it freezes, and doesn't resume it
    let played = false;
    document.addEventListener("freeze", () => { played = !video.paused; });
    document.addEventListener("resume", () => { if (played) play(); });
}

// Checks a recording's certificate, which is beside its playlist, when the viewer opens the section.
async function prove(url) {
    if (!$("proof").open) return;
    $("verdict").textContent = "Checking its certificate ..";
    try {
        const answer = await checkAside(await load(new URL("certificate.txt", url).href, { limit: CERTIFICATE_LIMIT }));
        $("verdict").textContent = wordsOf(answer);
        $("prices").hidden = !answer.certificate;
        if (answer.certificate) drawPrices($("prices"), answer.certificate);
    } catch {
        $("verdict").textContent = "There is no certificate for it, or it can't be loaded.";
    }
}

// The browser's own player, with its own controls.
function playNatively(url) {
    $("bar").hidden = true;
    video.controls = true;
    video.src = url;
    video.addEventListener("error", async () => {
        say("Nothing can be played here at the moment. Trying again.");
        await sleep(3);
        video.load();
        play();
    });
    video.addEventListener("playing", () => say(""));
    setInterval(() => {
        const start = video.getStartDate?.().getTime();
        $("time").textContent = start > 0 ? clockOf(start + 1000 * video.currentTime) : "";
    }, 500);
    play();
}

async function start(url, from, bad = new Set()) {
    player?.close();
    player = new Player(video, say, bad);
    try {
        await player.open(url, from);
        play();
    } catch (fault) {
        player.fail(fault);
    }
}

function main() {
    let url = "";
    try {
        url = addressOf(new URLSearchParams(location.search).get("list") ?? "hls/master.m3u8", location.href);
    } catch (fault) {
        return say(fault.message);
    }
    say("Loading ..");
    if (!("MediaSource" in window)) return video.canPlayType("application/vnd.apple.mpegurl") ? playNatively(url) : say("This browser can't play this kind of stream.");
    listen();
    // After an error playback restarts without the segment that the browser refused, or two seconds later; not forever.
    let restarts = 0, refused = 0;
    video.addEventListener("error", () => {
        const { at, bad } = player;
        if (video.getVideoPlaybackQuality().totalVideoFrames > 0) restarts = 0;
        const isKnown = bad.size > refused;
        refused = bad.size;
        if (restarts++ === MOST_RESTARTS) player.fail(video.error);
        else start(url, isKnown ? at : at + 2, bad);
    });
    $("proof").addEventListener("toggle", () => prove(url));
    start(url, 0);
    setInterval(paint, 250);
}

main();
