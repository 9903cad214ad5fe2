// Writes a value as the JSON text that `snap` is handed, by the table of values in ../README.md.

import { types } from 'node:util';

/** The lists, maps and objects that may stand inside one another: far below what the program's stack takes. */
const DEEPEST = 200;

/** The characters of a key, with its quotes and escapes: a longer one is no key to the program's reader. */
const LONGEST_KEY = 1024;

const SMALLEST = -(2n ** 127n);
const LARGEST = 2n ** 128n - 1n;

/** Thrown for a value that can't be handed over; the message begins with its place, as in `.user.created: ..`. */
export class Refusal extends TypeError {}

function refuse(place, why) {
  throw new Refusal(`${place || 'the value'}: ${why}`);
}

/**
 * Returns `value` as JSON. `place` is its path from the root, '' for the root.
 * Throws a Refusal for what the table doesn't name.
 */
export function toJson(value, place = '') {
  return write(value, place, []);
}

/** `around` holds the lists, maps and objects that `value` stands in. */
function write(value, place, around) {
  switch (typeof value) {
    case 'undefined':
      return 'null';
    case 'boolean':
      return String(value);
    case 'number':
      return Number.isSafeInteger(value) ? String(value) : writeText(floatText(value), place);
    case 'bigint':
      if (value < SMALLEST || value > LARGEST) {
        refuse(place, 'a whole number of more than 128 bits: hand it over as a text');
      }
      return String(value);
    case 'string':
      return writeText(value, place);
    case 'object':
      return value === null ? 'null' : writeObject(value, place, around);
    default:
      return refuse(place, `a ${typeof value} can't be handed over`);
  }
}

function floatText(number) {
  if (Number.isNaN(number)) return 'nan';
  if (number === Infinity) return 'inf';
  return number === -Infinity ? '-inf' : String(number);
}

function writeText(text, place) {
  if (/\p{Surrogate}/u.test(text)) refuse(place, 'a text with a lone surrogate');
  return JSON.stringify(text);
}

function writeObject(value, place, around) {
  if (around.includes(value)) refuse(place, 'a value that holds itself');
  if (around.length === DEEPEST) refuse(place, `a value nested more than ${DEEPEST} deep`);
  const inside = [...around, value];
  if (types.isDate(value)) {
    if (Number.isNaN(value.getTime())) refuse(place, 'an invalid Date');
    return JSON.stringify(value.toISOString());
  }
  const bytes = bytesOf(value);
  if (bytes) return JSON.stringify(bytes.toString('base64'));
  if (Array.isArray(value) || types.isTypedArray(value)) {
    return `[${Array.from(value, (item, at) => write(item, `${place}[${at}]`, inside)).join(',')}]`;
  }
  if (types.isSet(value)) {
    return `[${Array.from(value, (item, at) => write(item, `${place}[${at}]`, inside)).sort(byBytes).join(',')}]`;
  }
  if (types.isMap(value)) return writeMap(value, place, inside);
  const standIn = typeof value.toJSON === 'function' ? value.toJSON() : value;
  return standIn === value ? writeFields(value, place, inside) : write(standIn, place, inside);
}

/** A Buffer over the bytes of `value`, or undefined where it isn't one of the types that hold plain bytes. */
function bytesOf(value) {
  if (types.isAnyArrayBuffer(value)) return Buffer.from(value);
  if (types.isUint8Array(value) || types.isUint8ClampedArray(value) || types.isDataView(value)) {
    return Buffer.from(value.buffer, value.byteOffset, value.byteLength);
  }
  return undefined;
}

/** The order of the texts' UTF-8, which is the order of their characters. */
function byBytes(left, right) {
  return Buffer.compare(Buffer.from(left), Buffer.from(right));
}

function writeMap(map, place, around) {
  const pairs = [];
  for (const [key, value] of map) {
    const inner = write(key, `${place}.$key`, around);
    const name = inner.startsWith('"') ? JSON.parse(inner) : inner;
    pairs.push([name, value]);
  }
  return writePairs(pairs, place, around);
}

/** The fields of a plain object or of an instance of a class of one's own; an undefined one is left out. */
function writeFields(value, place, around) {
  const tag = Object.prototype.toString.call(value).slice('[object '.length, -1);
  if (tag !== 'Object') refuse(place, `a value of the type ${tag} can't be handed over`);
  for (const key of Object.getOwnPropertySymbols(value)) {
    if (Object.prototype.propertyIsEnumerable.call(value, key)) refuse(place, `a key that is a symbol, ${String(key)}`);
  }
  const pairs = Object.keys(value).map((key) => [key, value[key]]);
  return writePairs(pairs.filter(([, field]) => field !== undefined), place, around);
}

function writePairs(pairs, place, around) {
  const seen = new Set();
  const written = pairs.map(([key, value]) => {
    const here = placeOf(key, place);
    if (seen.has(key)) refuse(here, 'two keys with one text');
    seen.add(key);
    const name = writeText(key, here);
    if ([...name].length > LONGEST_KEY) refuse(here, `a key of more than ${LONGEST_KEY} characters`);
    return `${name}:${write(value, here, around)}`;
  });
  return `{${written.join(',')}}`;
}

function placeOf(key, place) {
  return /^[\p{L}_$][\p{L}\p{N}_]*$/u.test(key) ? `${place}.${key}` : `${place}[${JSON.stringify(key)}]`;
}
