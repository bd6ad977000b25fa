// Runs a C program that was compiled to a module of WebAssembly, with the little of C's library that the example
// programs need. usage: node run.js MODULE [WORDS...]
'use strict';
const fs = require('fs');

const PAGE = 65536;
let memory;
let free; // the first byte of memory that nothing uses

const bytes = () => new Uint8Array(memory.buffer);
const view = () => new DataView(memory.buffer);

function text(at) {
  return Buffer.from(bytes().subarray(at, bytes().indexOf(0, at))).toString('latin1');
}

// Nothing is given back: the programs are short.
function malloc(count) {
  const at = (free + 15) & ~15;
  free = at + count;
  if (free > memory.buffer.byteLength) memory.grow(Math.ceil((free - memory.buffer.byteLength) / PAGE));
  return at;
}

function put(words) {
  const at = malloc(words.length + 1);
  bytes().set(Buffer.from(`${words}\0`, 'latin1'), at);
  return at;
}

// The arguments behind a format lie in memory one after the other, each at a multiple of its size.
function formatted(format, at) {
  return format.replace(/%([-0]?)(\d*)(lld|zu|[sdux%])/g, (all, flag, width, kind) => {
    if (kind === '%') return '%';
    const size = kind === 'lld' ? 8 : 4;
    at = Math.ceil(at / size) * size;
    const unsigned = size === 4 ? view().getUint32(at, true) : 0;
    const words = {
      s: () => text(unsigned), d: () => `${unsigned | 0}`, u: () => `${unsigned}`, zu: () => `${unsigned}`,
      x: () => unsigned.toString(16), lld: () => `${view().getBigInt64(at, true)}`,
    }[kind]();
    at += size;
    return flag === '-' ? words.padEnd(width) : words.padStart(width, flag || ' ');
  });
}

function write(words) {
  fs.writeSync(1, words, null, 'latin1');
  return 0;
}

// A file is its number and one more: 0 is none.
function open(name, mode) {
  try {
    return fs.openSync(name, mode[0]) + 1;
  } catch {
    return 0;
  }
}

const library = {
  printf: (format, more) => write(formatted(text(format), more)),
  puts: (line) => write(`${text(line)}\n`),
  putchar: (character) => write(String.fromCharCode(character)),
  setvbuf: () => 0,
  fopen: (name, mode) => open(text(name), text(mode)),
  fread: (at, size, count, file) => fs.readSync(file - 1, bytes(), at, size * count, null) / size,
  fwrite: (at, size, count, file) => fs.writeSync(file - 1, bytes(), at, size * count) / size,
  fclose: (file) => fs.closeSync(file - 1) || 0,
  exit: (status) => process.exit(status),
  malloc,
  free: () => {},
  memcpy: (to, from, count) => bytes().copyWithin(to, from, from + count) && to,
  memset: (at, byte, count) => bytes().fill(byte, at, at + count) && at,
  memcmp: (one, other, count) => Buffer.compare(bytes().subarray(one, one + count), bytes().subarray(other, other + count)),
  strcmp: (one, other) => Buffer.compare(Buffer.from(text(one)), Buffer.from(text(other))),
};

function main(words) {
  const module = new WebAssembly.Module(fs.readFileSync(words[0]));
  const program = new WebAssembly.Instance(module, { env: library }).exports;
  memory = program.memory;
  free = memory.buffer.byteLength;
  const list = malloc(4 * words.length);
  words.forEach((word, i) => view().setUint32(list + 4 * i, put(word), true));
  process.exitCode = (program.__main_argc_argv || program.main)(words.length, list);
}

main(process.argv.slice(2));
