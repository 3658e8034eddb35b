// The page to try: shows a picture that is dropped, chosen or named, and what is known of it, or why it can't be shown.

import { canvasFor } from "./qoi-img.js";
import { checkFile, decode, fetchFile, isSupported } from "./qoi.js";

const [status, picture] = ["status", "picture"].map((it) => document.getElementById(it));
let loading = new AbortController();

/** Shows the picture that `bytesOf` gets, unless another one is wanted meanwhile. */
async function show(name, bytesOf) {
  loading.abort();
  loading = new AbortController();
  const { signal } = loading;
  picture.hidden = true;
  say(`${name} is on its way.`);
  try {
    const file = await bytesOf(signal);
    const header = checkFile(file);
    const canvas = canvasFor(header.width, header.height);
    await warm;
    const began = performance.now();
    const image = await decode(file, { signal });
    const time = performance.now() - began;
    canvas.getContext("2d").putImageData(image, 0, 0);
    present(name, header, file, canvas, time);
  } catch (error) {
    if (!signal.aborted) say(`${name} can't be shown: ${error.message}.`, true);
  }
}

function say(words, refused = false) {
  status.textContent = words;
  status.classList.toggle("refused", refused);
}

/** Puts a picture and what is known of it on the page. */
function present(name, header, file, canvas, time) {
  const { width, height, channels, colorspace } = header;
  canvas.role = "img";
  canvas.ariaLabel = name;
  document.getElementById("canvas").replaceChildren(canvas);
  const facts = {
    size: `${width} × ${height}`,
    channels: channels === 4 ? "4 (RGBA)" : "3 (RGB)",
    colorspace: colorspace === "linear" ? "linear" : "sRGB",
    bytes: file.byteLength.toLocaleString("en"),
    time: `${time.toFixed(1)} ms`,
  };
  for (const [id, words] of Object.entries(facts)) document.getElementById(id).textContent = words;
  picture.hidden = false;
  say(`${name}: ${facts.size} pixels, ${channels} channels, ${facts.colorspace}, decoded in ${facts.time}.`);
}

function showFile(file) {
  if (file) show(file.name, () => file.arrayBuffer());
}

function showAddress(address) {
  show(address.split("/").pop() || address, (signal) => fetchFile(address, signal));
}

/** A file of 256 by 256 pixels, each in a chunk of its own: colors, and a disk that lets through. */
function example() {
  const side = 256;
  const file = new Uint8Array(14 + 5 * side * side + 8);
  file.set([0x71, 0x6f, 0x69, 0x66, 0, 0, 1, 0, 0, 0, 1, 0, 4, 0]);
  for (let at = 14, y = 0; y < side; y++) {
    for (let x = 0; x < side; x++, at += 5) {
      const distance = Math.hypot(x - 127.5, y - 127.5);
      file.set([0xff, x, y, 255 - x, Math.min(255, Math.max(0, 4 * (distance - 32)))], at);
    }
  }
  file[file.length - 1] = 1;
  return file;
}

/** The ways to name a picture. */
function listen() {
  const [file, named, address] = ["file", "named", "address"].map((it) => document.getElementById(it));
  file.addEventListener("change", () => showFile(file.files[0]));
  named.addEventListener("submit", (event) => {
    event.preventDefault();
    history.replaceState(null, "", `?${new URLSearchParams({ src: address.value })}`);
    showAddress(address.value);
  });
  document.getElementById("example").addEventListener("click", () => show("The example", example));
  document.addEventListener("dragover", (event) => {
    event.preventDefault();
    document.body.classList.add("over");
  });
  document.addEventListener("dragleave", (event) => {
    if (!event.relatedTarget) document.body.classList.remove("over");
  });
  document.addEventListener("drop", (event) => {
    event.preventDefault();
    document.body.classList.remove("over");
    showFile(event.dataTransfer.files[0]);
  });
  address.value = new URLSearchParams(location.search).get("src") ?? "";
  if (address.value) showAddress(address.value);
}

// A pixel is decoded first, so that a time has no loading of the decoder in it.
const pixel = Uint8Array.of(0x71, 0x6f, 0x69, 0x66, 0, 0, 0, 1, 0, 0, 0, 1, 3, 0, 0xc0, 0, 0, 0, 0, 0, 0, 0, 1);
const warm = decode(pixel).catch(() => {});
document.getElementById("asleep").hidden = true;
document.getElementById(isSupported() ? "ways" : "unsupported").hidden = false;
if (isSupported()) listen();
