import assert from 'node:assert';
import test from 'node:test';
import { unifiedDiff } from '../diff.js';

const diff = (before, after) => unifiedDiff(before, after, 'stored', 'new');
const numbers = (count) => Array.from({ length: count }, (_, at) => `line ${at}`);
const textOf = (lines) => lines.map((line) => `${line}\n`).join('');

test('equal texts have no diff', () => assert.strictEqual(diff('a\nb\n', 'a\nb\n'), ''));

test('a changed line with three lines of context on each side', () => {
  const before = textOf(numbers(9));
  const wanted = '--- stored\n+++ new\n@@ -2,7 +2,7 @@\n line 1\n line 2\n line 3\n-line 4\n+other\n line 5\n line 6\n line 7';
  assert.strictEqual(diff(before, before.replace('line 4', 'other')), wanted);
});

test('a first text', () => {
  assert.strictEqual(diff('', 'a\nb\n'), '--- stored\n+++ new\n@@ -0,0 +1,2 @@\n+a\n+b');
});

test('a text that was removed', () => {
  assert.strictEqual(diff('a\n', ''), '--- stored\n+++ new\n@@ -1 +0,0 @@\n-a');
});

test('changes seven lines apart are two hunks, six lines apart one', () => {
  const lines = numbers(20);
  const change = (...places) => textOf(lines.map((line, at) => (places.includes(at) ? 'x' : line)));
  assert.deepStrictEqual(diff(textOf(lines), change(4, 12)).match(/^@@.*/gm), ['@@ -2,7 +2,7 @@', '@@ -10,7 +10,7 @@']);
  assert.deepStrictEqual(diff(textOf(lines), change(4, 11)).match(/^@@.*/gm), ['@@ -2,14 +2,14 @@']);
});

test('the shortest diff of texts that share lines in another order', () => {
  const edits = diff(textOf([...'abcabba']), textOf([...'cbabac'])).split('\n').slice(3);
  assert.strictEqual(edits.filter((line) => line[0] !== ' ').length, 5);
});

test('each diff of small texts gives the new text when it is applied', () => {
  const texts = Array.from({ length: 81 }, (_, at) => textOf([...at.toString(3).padStart(4, '0')].slice(at % 3)));
  for (const before of texts) {
    for (const after of texts) {
      const edits = diff(before, after).split('\n').slice(3);
      if (!edits.length) {
        assert.strictEqual(before, after);
        continue;
      }
      const side = (mark) => textOf(edits.filter((line) => line[0] !== mark).map((line) => line.slice(1)));
      assert.ok(before.endsWith(side('+')) || before.includes(side('+')));
      assert.strictEqual(before.replace(side('+'), side('-')), after);
    }
  }
});

test('five thousand lines that all changed take less than two seconds of a processor', () => {
  const before = textOf(numbers(5000));
  const start = process.cpuUsage();
  const found = diff(before, before.replaceAll('line', 'row')).split('\n');
  const { user, system } = process.cpuUsage(start);
  assert.strictEqual(found.length, 10003);
  assert.ok(user + system < 2_000_000, `${user + system} microseconds`);
});

test('five hundred changes are searched for, and more are shown as replaced', () => {
  const changed = (count) => diff(textOf(numbers(600)), textOf(numbers(600).map((line, at) => (at % 2 && at < count ? 'x' : line))));
  const kept = (count) => changed(count).match(/^ line/gm).length;
  assert.strictEqual(kept(500), 253);
  assert.strictEqual(kept(504), 4);
});
