// What bindings/web/speed measures in a page.
import { decode, readHeader } from "/qoi.js";

const BEHIND = 4096; // what stands behind the heap's base is free

async function bytesAt(path) {
  return new Uint8Array(await (await fetch(path)).arrayBuffer());
}

/** A function that decodes a file in the memory of a module: qoi.h's, or ours. Addresses of 64 bits are BigInts. */
async function decoder(path, file, size) {
  const { instance } = await WebAssembly.instantiate(await bytesAt(path));
  const { memory, __heap_base: base, ...entries } = instance.exports;
  const address = typeof base.value === "bigint" ? BigInt : Number;
  const input = Number(base.value) + BEHIND;
  const output = Math.ceil((input + file.length) / 64) * 64;
  memory.grow(address(Math.ceil((output + size - memory.buffer.byteLength) / 65_536)));
  new Uint8Array(memory.buffer).set(file, input);
  const answers = [0, 64, 128].map((it) => address(input - BEHIND + it));
  const [to, room, from, length] = [output, size, input, file.length].map(address);
  const call = entries.qoi_proved_decode_rgba
    ? () => entries.qoi_proved_decode_rgba(to, room, from, length, ...answers) === 0
    : () => entries.decoded(from, file.length, to) === to;
  return () => {
    if (!call()) throw new Error(`${path} refuses the file`);
  };
}

async function milliseconds(call) {
  const began = performance.now();
  await call();
  return performance.now() - began;
}

/** The bytes of a picture's pixels, and the least milliseconds of decoding them by each module, to an ImageData, and onto a canvas. */
globalThis.timed = async (path, modules, rounds) => {
  const file = await bytesAt(path);
  const { width, height } = readHeader(file);
  const size = 4 * width * height;
  const calls = [];
  for (const it of modules) calls.push(await decoder(it, file, size));
  const least = Array(calls.length + 2).fill(Infinity);
  const context = Object.assign(document.createElement("canvas"), { width, height }).getContext("2d");
  for (let round = 0; round < rounds; round++) {
    let image = null;
    const put = () => {
      context.putImageData(image, 0, 0);
      context.getImageData(width - 1, height - 1, 1, 1);
    };
    const all = [...calls, async () => (image = await decode(file)), put];
    for (const [i, call] of all.entries()) least[i] = Math.min(least[i], await milliseconds(call));
  }
  return [size, ...least];
};
