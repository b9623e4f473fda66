"use strict";
addEventListener("error", (event) => { document.documentElement.dataset.error = event.message; });

// ---- sounds

const RATE = 8000;

// The sample of 16 bits for an octet of A-law (ITU-T G.711).
function sample(octet) {
  const character = octet ^ 0x55, segment = character >> 4 & 7, interval = character & 15;
  const value = segment === 0 ? 2 * interval + 1 : 2 * interval + 33 << segment - 1;
  return 8 * (character & 0x80 ? value : -value);
}

// A WAV file of 16 bits with these octets of A-law.
function wave(octets) {
  const file = new DataView(new ArrayBuffer(44 + 2 * octets.length));
  const text = (at, word) => [...word].forEach((letter, n) => file.setUint8(at + n, letter.charCodeAt(0)));
  text(0, "RIFF"); file.setUint32(4, 36 + 2 * octets.length, true); text(8, "WAVEfmt ");
  file.setUint32(16, 16, true); file.setUint16(20, 1, true); file.setUint16(22, 1, true);
  file.setUint32(24, RATE, true); file.setUint32(28, 2 * RATE, true); file.setUint16(32, 2, true); file.setUint16(34, 16, true);
  text(36, "data"); file.setUint32(40, 2 * octets.length, true);
  octets.forEach((octet, n) => file.setInt16(44 + 2 * n, sample(octet), true));
  return new Blob([file], { type: "audio/wav" });
}

const players = [];

function player(figure) {
  const octets = Uint8Array.from(atob(figure.dataset.octets), (letter) => letter.charCodeAt(0));
  figure.dataset.samples = octets.length;
  const [button, output, link] = ["button", "output", "a"].map((name) => figure.querySelector(name));
  const place = figure.querySelector(".track input"), repeat = figure.querySelector("label input");
  const audio = new Audio(), length = octets.length / RATE;
  const source = () => audio.src ||= URL.createObjectURL(wave(octets));
  const time = (seconds) => length >= 1 ? seconds.toFixed(2) + " s" : (1000 * seconds).toFixed(1) + " ms";
  const show = (seconds) => {
    place.value = Math.round(seconds * RATE);
    place.parentNode.style.setProperty("--at", Math.min(1, seconds / length));
    output.value = `${time(Math.min(seconds, length))} / ${time(length)}`;
    if (!audio.paused) atFrame(Math.floor(seconds * RATE));
  };
  const follow = () => { show(audio.currentTime); if (!audio.paused) requestAnimationFrame(follow); };
  place.setAttribute("aria-valuetext", "0 s");
  link.addEventListener("pointerdown", () => { link.href = source(); });
  link.href = "#sounds";
  link.addEventListener("click", () => { link.href = source(); });
  button.addEventListener("click", () => {
    source();
    if (audio.paused) {
      players.forEach((other) => other.pause());
      if (audio.ended || audio.currentTime >= length) audio.currentTime = 0;
      audio.play();
    } else audio.pause();
  });
  repeat.addEventListener("change", () => { audio.loop = repeat.checked; });
  place.addEventListener("input", () => {
    source();
    audio.currentTime = place.value / RATE;
    show(place.value / RATE);
    place.setAttribute("aria-valuetext", time(place.value / RATE));
  });
  audio.addEventListener("play", () => { button.textContent = "Pause"; follow(); });
  audio.addEventListener("pause", () => { button.textContent = "Play"; });
  audio.addEventListener("ended", () => { button.textContent = "Play"; show(length); });
  players.push(audio);
  show(0);
}

// ---- steps

const steps = [...document.querySelectorAll("#steps li")].map((item) => ({
  text: item.textContent, x: +item.dataset.x, width: +item.dataset.w, event: +item.dataset.event, last: +item.dataset.last,
  frame: item.dataset.frame === "" ? null : +item.dataset.frame,
}));
const step = document.getElementById("step"), said = document.getElementById("said");

function go(at, isShown = true) {
  if (!(at in steps)) return;
  const { text, x, width, event, last } = steps[at];
  step.value = at;
  said.value = text;
  document.querySelectorAll(".cursor").forEach((cursor) => { cursor.setAttribute("x", x); cursor.setAttribute("width", width); });
  document.querySelectorAll(".ladder li[data-event]").forEach((rung) => {
    rung.classList.toggle("now", rung.dataset.event >= event && rung.dataset.event <= last);
  });
  if (isShown) boxes.forEach((box) => {
    if (x < box.scrollLeft || x + width > box.scrollLeft + box.clientWidth) box.scrollLeft = x - box.clientWidth / 2;
  });
}

// The step in which a frame is.
function atFrame(frame) {
  let found = null;
  steps.forEach(({ frame: first }, at) => { if (first !== null && first <= frame) found = at; });
  if (found !== null && +step.value !== found) go(found);
}

step.addEventListener("input", () => go(+step.value));
document.getElementById("back").addEventListener("click", () => go(+step.value - 1));
document.getElementById("on").addEventListener("click", () => go(+step.value + 1));
document.querySelectorAll("svg.steps").forEach((picture) => picture.addEventListener("click", (event) => {
  const x = event.clientX - picture.getBoundingClientRect().left + picture.viewBox.baseVal.x;
  go(steps.findIndex((column) => x < column.x + column.width), false);
}));

// All pictures show the same columns.
const boxes = [...document.querySelectorAll(".scroll")];
boxes.forEach((box) => box.addEventListener("scroll", () => {
  boxes.forEach((other) => { if (other.scrollLeft !== box.scrollLeft) other.scrollLeft = box.scrollLeft; });
}));

// ---- Paull's matrix, step by step

document.querySelectorAll(".matrix").forEach((matrix) => {
  const texts = matrix.querySelectorAll("li"), marks = matrix.querySelectorAll("[data-step]");
  const [back, on] = ["back", "on"].map((name) => matrix.querySelector("." + name));
  let at = 0;
  const show = (next) => {
    at = Math.max(0, Math.min(texts.length - 1, next));
    texts.forEach((text, n) => text.classList.toggle("now", n === at));
    marks.forEach((mark) => {
      mark.classList.toggle("done", mark.dataset.step <= at);
      mark.classList.toggle("now", +mark.dataset.step === at);
    });
    [back.disabled, on.disabled] = [at === 0, at === texts.length - 1];
  };
  [[back, -1, "one step back"], [on, 1, "one step on"]].forEach(([button, step, label]) => {
    button.setAttribute("aria-label", label);
    button.addEventListener("click", () => show(at + step));
  });
  matrix.classList.add("live");
  matrix.querySelector("ol").setAttribute("aria-live", "polite");
  show(0);
});

// ---- the search

const find = document.getElementById("find"), calls = [...document.querySelectorAll(".call")];
if (find) find.addEventListener("input", () => {
  const words = find.value.toLowerCase().split(/\s+/).filter(Boolean);
  calls.forEach((call) => {
    const text = call.textContent.toLowerCase();
    call.hidden = !words.every((word) => text.includes(word));
  });
  const shown = calls.filter((call) => !call.hidden).length;
  document.getElementById("found").value = words.length ? `${shown} of ${calls.length}` : "";
});

// ---- the rest

const line = document.getElementById("line");
function showLine() {
  document.querySelectorAll(".line").forEach((pictures) => { pictures.hidden = pictures.id !== "line-" + line.value; });
  boxes.forEach((box) => { box.scrollLeft = boxes[0].scrollLeft; });
}
if (line) { line.addEventListener("change", showLine); showLine(); }
const octets = document.getElementById("octets");
octets.addEventListener("change", () => document.body.classList.toggle("show-octets", octets.checked));
document.querySelectorAll(".sound").forEach(player);
go(0, false);
document.documentElement.dataset.ready = "yes";
