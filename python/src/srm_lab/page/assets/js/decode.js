// From the text in the page to the scenario and the trace's columns, as page/document.py writes them.

/** The bytes of a text in base 64. */
function bytesOf(text) {
  const raw = atob(text);
  const bytes = new Uint8Array(raw.length);
  for (let at = 0; at < raw.length; at++) bytes[at] = raw.charCodeAt(at);
  return bytes;
}

/** The bytes that these bytes are the zlib stream of. */
async function inflated(bytes) {
  const stream = new Blob([bytes]).stream().pipeThrough(new DecompressionStream("deflate"));
  return new Uint8Array(await new Response(stream).arrayBuffer());
}

/** Reads numbers in base 128 from bytes. */
class Reader {
  constructor(bytes) {
    this.bytes = bytes;
    this.at = 0;
  }

  /** The next number. Numbers may have more than 32 bits, so they are added up and not shifted. */
  number() {
    let value = 0;
    let factor = 1;
    let byte = this.bytes[this.at++];
    while (byte > 127) {
      value += (byte & 127) * factor;
      factor *= 128;
      byte = this.bytes[this.at++];
    }
    return value + byte * factor;
  }

  /** The next so many bytes. */
  block(length) {
    const block = this.bytes.subarray(this.at, this.at + length);
    this.at += length;
    return block;
  }
}

/** All numbers of a column: there are as many as bytes below 128. */
function numbersOf(block) {
  let count = 0;
  for (let at = 0; at < block.length; at++) if (block[at] < 128) count++;
  const reader = new Reader(block);
  const numbers = new Float64Array(count);
  for (let at = 0; at < count; at++) numbers[at] = reader.number();
  return numbers;
}

/** Makes steps the numbers that they lead to: 2 s is a step up by s, and 2 s - 1 one down by s. */
function addUp(steps) {
  let value = 0;
  for (let at = 0; at < steps.length; at++) {
    const step = steps[at];
    value += step % 2 === 0 ? step / 2 : -(step + 1) / 2;
    steps[at] = value;
  }
}

const STEPPED = new Set(["rowNumber", "rowTime", "rowMember", "rowPacket", "rowName", "lostName", "packetCount",
  "packetTime"]);

/** The page's data: `about`, as the page's maker wrote it, and `columns` by name. */
async function decode(text) {
  const reader = new Reader(await inflated(bytesOf(text)));
  const about = JSON.parse(new TextDecoder().decode(reader.block(reader.number())));
  const columns = {};
  for (const [name, length] of about.columns) {
    columns[name] = numbersOf(reader.block(length));
    if (STEPPED.has(name)) addUp(columns[name]);
  }
  return { about, columns };
}
