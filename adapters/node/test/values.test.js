// The table of values in ../../README.md, a row each, and each refusal with its place.

import assert from 'node:assert';
import test from 'node:test';
import { Refusal, toJson } from '../values.js';

class Order {
  #hidden = 1;
  id = 7;
  note = undefined;
  lines = ['lamp'];
}

class Money {
  toJSON() {
    return { amount: 5n, at: new Date(0) };
  }
}

const shared = { a: 1 };

const rows = [
  ['null', null, 'null'],
  ['undefined at the root', undefined, 'null'],
  ['undefined and holes in a list', [undefined, , 1], '[null,null,1]'],
  ['undefined in an object', { a: undefined, b: 1 }, '{"b":1}'],
  ['undefined in a Map', new Map([['a', undefined]]), '{"a":null}'],
  ['truths', [true, false], '[true,false]'],
  ['whole numbers', [0, -7, 9007199254740991, -0], '[0,-7,9007199254740991,0]'],
  ['floats', [1.5, 0.1, 1e-7, 1e21, 9007199254740992], '["1.5","0.1","1e-7","1e+21","9007199254740992"]'],
  ['no numbers', [NaN, Infinity, -Infinity], '["nan","inf","-inf"]'],
  ['the largest BigInt', 340282366920938463463374607431768211455n, '340282366920938463463374607431768211455'],
  ['the smallest BigInt', -170141183460469231731687303715884105728n, '-170141183460469231731687303715884105728'],
  ['texts', 'a/b "c" \\ \n\u0001 é 😀', '"a/b \\"c\\" \\\\ \\n\\u0001 é 😀"'],
  ['a Date', new Date(Date.UTC(2024, 1, 29, 12, 30)), '"2024-02-29T12:30:00.000Z"'],
  ['a Buffer', Buffer.from('snap'), '"c25hcA=="'],
  ['a Uint8Array over part of a buffer', new Uint8Array([1, 2, 3, 4]).subarray(1, 3), '"AgM="'],
  ['a Uint8ClampedArray', new Uint8ClampedArray([255]), '"/w=="'],
  ['an ArrayBuffer', new Uint8Array([255]).buffer, '"/w=="'],
  ['a DataView', new DataView(new Uint8Array([1, 2, 3]).buffer, 1, 1), '"Ag=="'],
  ['other typed arrays', [new Int16Array([-1, 2]), new Float64Array([0.5, 2]), new BigUint64Array([3n])], '[[-1,2],["0.5",2],[3]]'],
  ['a Set, by its items\' JSON', new Set(['b', 10, 9, 'a', null]), '["a","b",10,9,null]'],
  ['a Set, by characters and not by halves of pairs', new Set(['😀', '\uffee']), '["\uffee","😀"]'],
  ['a Map, in its order', new Map([['b', 1], ['a', new Map()]]), '{"b":1,"a":{}}'],
  ['keys that are no texts', new Map([[1, 0], [true, 0], [null, 0], [1.5, 0], [[1], 0]]), '{"1":0,"true":0,"null":0,"1.5":0,"[1]":0}'],
  ['an instance of a class', new Order(), '{"id":7,"lines":["lamp"]}'],
  ['an object without a prototype', Object.assign(Object.create(null), { a: 1 }), '{"a":1}'],
  ['toJSON', [new Money()], '[{"amount":5,"at":"1970-01-01T00:00:00.000Z"}]'],
  ['toJSON that returns itself', { a: 1, toJSON() { delete this.toJSON; return this; } }, '{"a":1}'],
  ['one object twice', [shared, shared], '[{"a":1},{"a":1}]'],
  ['a key __proto__', JSON.parse('{"__proto__":1}'), '{"__proto__":1}'],
  ['a key as long as it may be', { ['😀'.repeat(1022)]: 1 }, `{"${'😀'.repeat(1022)}":1}`],
  ['nothing in it', [[], {}, '', new Set()], '[[],{},"",[]]'],
];

for (const [name, value, wanted] of rows) {
  test(`value: ${name}`, () => assert.strictEqual(toJson(value), wanted));
}

const loop = { inner: [] };
loop.inner.push(loop);
let deep = [];
for (let level = 1; level < 201; level += 1) deep = [deep];

const refusals = [
  ['2n ** 128n', { total: 2n ** 128n }, '.total: a whole number of more than 128 bits'],
  ['-(2n ** 127n) - 1n', [-(2n ** 127n) - 1n], '[0]: a whole number of more than 128 bits'],
  ['a function', { user: { save() {} } }, '.user.save: a function'],
  ['a symbol', Symbol('x'), 'the value: a symbol'],
  ['a symbol as a key', { a: { [Symbol('x')]: 1 } }, '.a: a key that is a symbol, Symbol(x)'],
  ['a lone surrogate', ['\ud83d'], '[0]: a text with a lone surrogate'],
  ['a lone surrogate in a key', { '\ude00': 1 }, ': a text with a lone surrogate'],
  ['an invalid Date', { at: new Date(NaN) }, '.at: an invalid Date'],
  ['an Error', { cause: new RangeError('no') }, '.cause: a value of the type Error'],
  ['a RegExp', [[/a/]], '[0][0]: a value of the type RegExp'],
  ['a Promise', Promise.resolve(), 'the value: a value of the type Promise'],
  ['a WeakMap', new WeakMap(), 'the value: a value of the type WeakMap'],
  ['a boxed number', { n: new Number(1) }, '.n: a value of the type Number'],
  ['a value that holds itself', loop, '.inner[0]: a value that holds itself'],
  ['a value that is nested too deep', deep, 'a value nested more than 200 deep'],
  ['two keys with one text', new Map([[1, 'a'], ['1', 'b']]), '["1"]: two keys with one text'],
  ['a key that is too long', { ['k'.repeat(1023)]: 1 }, ': a key of more than 1024 characters'],
];

for (const [name, value, words] of refusals) {
  test(`refused: ${name}`, () => {
    assert.throws(() => toJson(value), (error) => error instanceof Refusal && error.message.includes(words));
  });
}

test('a value 200 deep is taken', () => assert.strictEqual(toJson(deep[0]), '['.repeat(200) + ']'.repeat(200)));
