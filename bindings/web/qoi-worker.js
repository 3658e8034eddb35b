// The worker of qoi.js: takes a file and the number of bytes of its pixels in four channels, and answers with these pixels or with a
// refusal. qoi.js has looked at the header before.

const PAGE = 65_536;
const ALIGNED = 64;
const ANSWERS_SIZE = 256; // room for the header, the number of bytes left and the error that the entry writes

const REFUSALS = {
  7: { kind: "UnexpectedBufferEnd", message: "unexpected input buffer end while decoding" },
  8: { kind: "InvalidPadding", message: "invalid padding (stream end marker mismatch)" },
};
const OUT_OF_MEMORY = { kind: "OutOfMemory", message: "out of memory" };

let entries = null; // what the module's only instance exports

onmessage = async ({ data: { file, size, module } }) => {
  try {
    const compiled = entries ? null : (module ?? (await compile()));
    if (compiled) entries = (await WebAssembly.instantiate(compiled)).exports;
    const answer = decode(file, size);
    postMessage({ ...answer, compiled, memory: held() }, answer.pixels ? [answer.pixels.buffer] : []);
  } catch (error) {
    const refusal = error instanceof RangeError ? OUT_OF_MEMORY : { kind: error.name, message: error.message };
    postMessage({ refusal, memory: 0 });
  }
};

/** The module, whatever type its server says that it has. */
async function compile() {
  const url = new URL("./qoi_proved.wasm", import.meta.url);
  try {
    const response = await fetch(url);
    if (!response.ok) throw new Error(`status ${response.status}`);
    return await WebAssembly.compile(await response.arrayBuffer());
  } catch (error) {
    throw Object.assign(new Error(`${url.pathname} can't be loaded: ${error.message}`), { name: "NotLoaded" });
  }
}

/** How many bytes of memory the instance holds. */
function held() {
  return entries.memory.buffer.byteLength;
}

/** Has the file decoded in the module's memory: from its heap on stand the answers, the file and the pixels. */
function decode(file, size) {
  const answers = aligned(Number(entries.__heap_base.value));
  const input = answers + ANSWERS_SIZE;
  const output = aligned(input + file.length);
  reserve(output + size);
  new Uint8Array(entries.memory.buffer).set(file, input);
  const [header, left, error] = [0, 64, 128].map((it) => BigInt(answers + it));
  const slices = [output, size, input, file.length].map(BigInt);
  const code = entries.qoi_proved_decode_rgba(...slices, header, left, error);
  if (code) return { refusal: REFUSALS[code] ?? { kind: "Refused", message: `refused with number ${code}` } };
  return { pixels: new Uint8ClampedArray(entries.memory.buffer, output, size).slice() };
}

function aligned(address) {
  return Math.ceil(address / ALIGNED) * ALIGNED;
}

/** Makes the memory so large, if it isn't. */
function reserve(bytes) {
  const missing = Math.ceil((bytes - held()) / PAGE);
  if (missing > 0) entries.memory.grow(BigInt(missing));
}
