// Makes recorded calls again on the library as a module of WebAssembly, and compares every answer, every byte of every
// buffer, and the bytes beside each. What replay.c does elsewhere; hosts/rust/compare/src/record.rs says what the file has.
//
// usage: node replay.js MODULE FILE
'use strict';
const fs = require('fs');

const MAGIC = 'blockheap calls\n', VERSION = 1;
const GUARD = 64, BESIDE = 0xA5, PLACES = 16, SHOWN = 5;
const RUBBISH = 0xDEADBEEF;
const ROOM = 1 << 20; // for each buffer, with what is beside it
const PAGE = 65536;

const BUFFERS = ['pool', 'table', 'root list', 'mark stack', 'image'];
const POOL = 0, TABLE = 1, ROOTS = 2, STACK = 3, IMAGE = 4;

// The calls in the order of their numbers in the file: the bits of each argument, the buffers beside the heap's, and
// the answers.
const KNOWN = [
  { name: 'init', bits: [], buffers: [], answers: [] },
  { name: 'allocate', bits: [64], buffers: [], answers: ['block', 'change'] },
  { name: 'free', bits: [64], buffers: [], answers: ['change'] },
  { name: 'reallocate', bits: [64, 64], buffers: [], answers: ['block', 'change'] },
  { name: 'collect', bits: [], buffers: [ROOTS, STACK], answers: ['kept', 'rescans', 'change'] },
  { name: 'survey', bits: [], buffers: [], answers: ['used', 'objects', 'longest'] },
  { name: 'load', bits: [64, 64], buffers: [], answers: ['value'] },
  { name: 'store', bits: [64, 64, 32], buffers: [], answers: [] },
  { name: 'write_image', bits: [], buffers: [ROOTS, IMAGE], answers: ['length'] },
  { name: 'open_image', bits: [], buffers: [ROOTS, IMAGE], answers: ['base', 'count'] },
  { name: 'log_append', bits: [64, 32, 32], buffers: [ROOTS, STACK], answers: ['first', 'change'] },
  { name: 'log_read', bits: [64, 64], buffers: [], answers: ['time', 'tips'] },
  { name: 'log_drop', bits: [64], buffers: [], answers: ['first', 'change'] },
];

function giveUp(why) {
  console.log(why);
  process.exit(2);
}

// The file, read from its front.
class Record {
  constructor(name) {
    this.bytes = fs.readFileSync(name);
    this.at = MAGIC.length;
    if (this.bytes.toString('latin1', 0, this.at) !== MAGIC || this.size() !== VERSION) {
      giveUp('this is no record, or one of another version');
    }
  }

  byte() {
    if (this.at >= this.bytes.length) giveUp('the record ends early');
    return this.bytes[this.at++];
  }

  // A number of up to 53 bits.
  size() {
    let number = 0;
    for (let of = 1; ; of *= 128) {
      const byte = this.byte();
      number += (byte & 127) * of;
      if (byte < 128) return number;
    }
  }

  // A number of 64 bits.
  number() {
    let number = 0n;
    for (let shift = 0n; ; shift += 7n) {
      const byte = this.byte();
      number |= BigInt(byte & 127) << shift;
      if (byte < 128) return number;
    }
  }

  // A change of these bytes: how they are then.
  change(bytes) {
    const changed = new Uint8Array(this.size());
    changed.set(bytes.subarray(0, changed.length));
    for (let pieces = this.size(), at = 0; pieces > 0; pieces--) {
      at += this.size();
      const end = at + this.size();
      changed.set(this.bytes.subarray(this.at, this.at + end - at), at);
      this.at += end - at;
      at = end;
    }
    return changed;
  }
}

// The module's memory behind what the module itself uses: the places for the answers, and the buffers.
class Memory {
  constructor(memory) {
    this.answers = memory.grow(Math.ceil((BUFFERS.length * ROOM + PAGE) / PAGE)) * PAGE;
    this.bytes = new Uint8Array(memory.buffer);
    this.words = new DataView(memory.buffer);
  }

  // Lends bytes, at an address of another remainder from call to call, and answers it.
  lend(buffer, bytes, number) {
    if (bytes.length > ROOM - 2 * GUARD - PLACES) giveUp('a length of the record is too large');
    const at = this.answers + PAGE + buffer * ROOM + GUARD + (number + 5 * buffer) % PLACES;
    this.bytes.fill(BESIDE, at - GUARD, at);
    this.bytes.set(bytes, at);
    this.bytes.fill(BESIDE, at + bytes.length, at + bytes.length + GUARD);
    return at;
  }

  place(answer) {
    return this.answers + 8 * answer + 4;
  }

  clearPlaces() {
    for (let i = 0; i < 7; i++) this.words.setUint32(this.answers + 4 * i, RUBBISH, true);
  }

  // What was written beside the places of so many answers, or beside the buffer at the address.
  differenceBesideAnswers(answers) {
    for (let i = 0; i < 7; i++) {
      const isPlace = i % 2 === 1 && i < 2 * answers;
      if (!isPlace && this.words.getUint32(this.answers + 4 * i, true) !== RUBBISH) {
        return 'a word beside the answers was written';
      }
    }
    return null;
  }

  differenceInBuffer(buffer, at, recorded) {
    const end = at + recorded.length;
    const isBeside = (byte) => byte === BESIDE;
    if (!this.bytes.subarray(at - GUARD, at).every(isBeside)) return `a byte before the ${BUFFERS[buffer]} was written`;
    if (!this.bytes.subarray(end, end + GUARD).every(isBeside)) return `a byte behind the ${BUFFERS[buffer]} was written`;
    const left = this.bytes.subarray(at, end);
    if (Buffer.compare(left, recorded) === 0) return null;
    const i = left.findIndex((byte, index) => byte !== recorded[index]);
    return `byte ${i} of the ${BUFFERS[buffer]} is ${left[i]} where ${recorded[i]} was recorded`;
  }
}

// The words for C: lent has an address and a length for each buffer.
function handOver(call, base, t, given, lent, places) {
  const heap = [...lent[POOL], ...lent[TABLE]];
  if (call.name === 'open_image') return [...lent[IMAGE], t, ...heap, ...lent[ROOTS], ...places];
  return [base, t, ...heap, ...given, ...call.buffers.flatMap((buffer) => lent[buffer]), ...places];
}

// Makes the next call, and answers how it differs from the record, or null.
function difference(call, number, record, memory, functions, recorded) {
  const base = record.number(), t = record.number();
  const given = call.bits.map((bits) => bits === 64 ? record.number() : record.size());
  const taken = [POOL, TABLE, ...call.buffers];
  const lent = BUFFERS.map(() => []);
  for (const buffer of taken) {
    recorded[buffer] = record.change(recorded[buffer]);
    lent[buffer] = [memory.lend(buffer, recorded[buffer], number), recorded[buffer].length];
  }
  memory.clearPlaces();
  const places = call.answers.map((_, answer) => memory.place(answer));
  const refusal = functions[`blockheap_${call.name}`](...handOver(call, base, t, given, lent, places)) >>> 0;

  const found = [];
  const compare = (what, is, was) => is === was || found.push(`${what} is ${is} where ${was} was recorded`);
  compare('the refusal', refusal, record.size());
  call.answers.forEach((name, i) => compare(name, memory.words.getUint32(places[i], true), record.size()));
  found.push(memory.differenceBesideAnswers(call.answers.length));
  for (const buffer of taken) {
    recorded[buffer] = record.change(recorded[buffer]);
    found.push(memory.differenceInBuffer(buffer, lent[buffer][0], recorded[buffer]));
  }
  return found.find((words) => words) || null;
}

function replay(functions, record) {
  const memory = new Memory(functions.memory);
  const recorded = BUFFERS.map(() => new Uint8Array(0));
  const calls = record.size();
  let differ = 0;
  for (let number = 0; number < calls; number++) {
    const call = KNOWN[record.size()];
    const words = difference(call, number, record, memory, functions, recorded);
    if (words && differ++ < SHOWN) console.log(`call ${number}, ${call.name}: ${words}`);
  }
  if (record.at !== record.bytes.length) giveUp('the record goes on behind its last call');
  console.log(`${calls - differ} calls agree, ${differ} differ (32-bit, little-endian)`);
  process.exitCode = differ === 0 ? 0 : 1;
}

function main(words) {
  if (words.length !== 2) giveUp('usage: node replay.js MODULE FILE');
  let memory;
  const memset = (at, byte, count) => {
    new Uint8Array(memory.buffer).fill(byte, at, at + count);
    return at;
  };
  const module = new WebAssembly.Module(fs.readFileSync(words[0]));
  const functions = new WebAssembly.Instance(module, { env: { memset } }).exports;
  memory = functions.memory;
  replay(functions, new Record(words[1]));
}

main(process.argv.slice(2));
