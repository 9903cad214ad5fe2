// Whole runs of small projects in scratch folders, judged by the real program: SNAP, or `snap` on the path.

import assert from 'node:assert';
import { spawnSync } from 'node:child_process';
import { chmodSync, existsSync, mkdirSync, mkdtempSync, readdirSync, readFileSync, rmSync, symlinkSync, writeFileSync } from 'node:fs';
import { tmpdir } from 'node:os';
import path from 'node:path';
import test from 'node:test';
import { fileURLToPath } from 'node:url';

const adapter = fileURLToPath(new URL('..', import.meta.url));
const program = (process.env.SNAP ?? 'snap').includes('/') ? path.resolve(process.env.SNAP) : (process.env.SNAP ?? 'snap');

/** A project with the adapter installed and one test file, removed at the end of the test. */
function project(t, text, file = 'test/shop.test.mjs') {
  const folder = mkdtempSync(path.join(tmpdir(), 'snap-node-'));
  t.after(() => rmSync(folder, { recursive: true }));
  mkdirSync(path.join(folder, 'node_modules'));
  mkdirSync(path.join(folder, 'test'));
  symlinkSync(adapter, path.join(folder, 'node_modules', 'snap-testing'));
  writeFileSync(path.join(folder, 'package.json'), '{}');
  writeFileSync(path.join(folder, file), text);
  const shots = path.join(folder, 'test/snapshots');
  return {
    folder,
    write: (name, content) => writeFileSync(path.join(folder, name), content),
    names: () => (existsSync(shots) ? readdirSync(shots).sort() : []),
    read: (name) => readFileSync(path.join(shots, name), 'utf8'),
    run: (variables = {}, words = [file]) => {
      const env = { ...process.env, SNAP: program, ...variables };
      for (const name of ['NODE_TEST_CONTEXT', 'CI', 'SNAP_MODE', 'SNAP_UPDATE']) if (!(name in variables)) delete env[name];
      const { status, stdout, stderr } = spawnSync(process.execPath, words, { cwd: folder, env, encoding: 'utf8' });
      return { status, out: stdout + stderr };
    },
  };
}

const head = "import test, { describe, it } from 'node:test';\nimport { snapshot } from 'snap-testing';\n";

test('first run, approval, pass, a change, CI', (t) => {
  const text = `${head}test('first order', (t) => snapshot(t, { id: 1, lines: 'a\\nb\\n', paid: false }));\n`;
  const shop = project(t, text);
  const first = shop.run();
  assert.strictEqual(first.status, 1);
  assert.match(first.out, /pending .*test\/snapshots\/shop\.test__first order\.snap/);
  assert.match(first.out, /shop\.test\.mjs:3: no value is stored yet/);
  assert.deepStrictEqual(shop.names(), ['shop.test__first order.snap.new']);

  assert.strictEqual(shop.run({ SNAP_UPDATE: '1' }).status, 0);
  const wanted = '---\nsource: test/shop.test.mjs\nexpression: first order\n---\nid: 1\nlines: |\n  a\n  b\n\npaid: false\n';
  assert.strictEqual(shop.read('shop.test__first order.snap'), wanted);
  assert.strictEqual(shop.run().status, 0);
  assert.deepStrictEqual(shop.names(), ['shop.test__first order.snap']);
  assert.strictEqual(shop.run({ CI: 'true' }).status, 0);

  shop.write('test/shop.test.mjs', text.replace('b\\n', 'c\\n'));
  const strict = shop.run({ CI: 'true' });
  assert.strictEqual(strict.status, 1);
  assert.match(strict.out, /rejected .*first order\.snap/);
  assert.match(strict.out, /@@ -1,6 \+1,6 @@\n *id: 1\n *lines: \|\n *a\n *- {2}b\n *\+ {2}c\n/);
  assert.deepStrictEqual(shop.names(), ['shop.test__first order.snap']);
  assert.match(shop.run().out, /pending/);
  assert.strictEqual(shop.read('shop.test__first order.snap'), wanted);
  assert.match(shop.read('shop.test__first order.snap.new'), /^assertion_line: 3$/m);
});

test('names: suites, subtests, further values, given ones', (t) => {
  const shop = project(t, `${head}
describe('cart', () => it('adds', (t) => { snapshot(t, 1); snapshot(t, 2); snapshot(t, 3, { name: 'mine' }); snapshot(t, 4); }));
test('outer', (t) => t.test('inner', (s) => snapshot(s, 5)));
test('a/b: c', (t) => snapshot(t, 6));
for (const value of [7, 8]) test('each', (t) => snapshot(t, value));
`);
  assert.strictEqual(shop.run({ SNAP_UPDATE: '1' }).status, 0);
  const values = {
    'a__b: c': 6, 'cart > adds': 1, 'cart > adds-2': 2, 'cart > adds-3': 4, each: 7, 'each-2': 8, mine: 3, 'outer > inner': 5,
  };
  assert.deepStrictEqual(shop.names(), Object.keys(values).map((name) => `shop.test__${name}.snap`).sort());
  for (const [name, value] of Object.entries(values)) {
    assert.strictEqual(shop.read(`shop.test__${name}.snap`).split('---\n')[2], `${value}\n`, name);
  }
});

test('redactions, sorted maps, sorted lists', (t) => {
  const shop = project(t, `${head}
test('a', (t) => snapshot(t, { id: Math.random(), b: [{ at: new Date() }] }, { redact: { '.id': '[id]', '.b[].at': null }, sort: true }));
test('b', (t) => snapshot(t, { tags: ['y', 'x'] }, { sort: ['.tags'] }));
`);
  assert.strictEqual(shop.run({ SNAP_UPDATE: '1' }).status, 0);
  assert.strictEqual(shop.read('shop.test__a.snap').split('---\n')[2], 'b:\n  - at: ~\nid: "[id]"\n');
  assert.strictEqual(shop.read('shop.test__b.snap').split('---\n')[2], 'tags:\n  - x\n  - y\n');
  assert.strictEqual(shop.run({ CI: '1' }).status, 0);
});

test('what is refused leaves the other values judged', (t) => {
  const shop = project(t, `${head}
test('a', (t) => {
  snapshot(t, { user: { save() {} } });
  snapshot(t, 1);
  snapshot(t, 2, { redact: { 'no selector': 0 } });
  snapshot(t, 3);
  snapshot(t, 4, { name: 'x/y' });
  snapshot(t, 5, { name: 'x__y' });
  snapshot(t, 6, { name: 'n'.repeat(250) });
  snapshot(t, 7);
});
test('b', (t) => snapshot(t, 8));
test('c', (t) => snapshot(t, 9, { nmae: 'd' }));
`);
  const { status, out } = shop.run({ SNAP_UPDATE: '1' });
  assert.strictEqual(status, 1);
  assert.match(out, /shop\.test\.mjs:5: \.user\.save: a function can't be handed over/);
  assert.match(out, /shop\.test\.mjs:7: snap: document 2 is no request \(is a selector wrong\?\)/);
  assert.match(out, /shop\.test\.mjs:10: the name: another value has it/);
  assert.match(out, /shop\.test\.mjs:11: the name: longer than a file's/);
  assert.match(out, /there is no option nmae/);
  assert.match(out, /# fail 2/);
  const wanted = ['a-2', 'a-4', 'a-5', 'b', 'x__y'].map((name) => `shop.test__${name}.snap`);
  assert.deepStrictEqual(shop.names(), wanted);
});

test('a refusal has the words of the program beside', (t) => {
  const shop = project(t, `${head}test('a', (t) => { snapshot(t, 1); snapshot(t, 2, { redact: { 'no selector': 0 } }); });\n`);
  // In its place stands a script, which is handed the same stream and tells of each document.
  const script = (name, text) => {
    shop.write(name, `#!/bin/sh\n${text}\n`);
    chmodSync(path.join(shop.folder, name), 0o755);
  };
  script('snap', `exec '${program}' "$@"`);
  script('snap-explain', `[ "$*" = 'stream . --literal' ] && awk '/^---/ { print "document " ++n ", line 2: why" }'; exit 1`);
  const { status, out } = shop.run({ SNAP: path.join(shop.folder, 'snap'), SNAP_UPDATE: '1' });
  assert.strictEqual(status, 1);
  assert.match(out, /snap: document 2 is no request\n *document 2, line 2: why\n/);
  assert.doesNotMatch(out, /document 1, line/);
});

test('a folder in place of a snapshot fails its value alone', (t) => {
  const shop = project(t, `${head}test('a', (t) => { snapshot(t, 1); snapshot(t, 2); });\n`);
  mkdirSync(path.join(shop.folder, 'test/snapshots/shop.test__a.snap'), { recursive: true });
  const { status, out } = shop.run({ SNAP_UPDATE: '1' });
  assert.strictEqual(status, 1);
  assert.match(out, /document 1: file fault at test\/snapshots\/shop\.test__a\.snap/);
  assert.ok(shop.names().includes('shop.test__a-2.snap'));
});

test('a header that lets no value pass is told', (t) => {
  const shop = project(t, `${head}test('a', (t) => snapshot(t, 1));\n`);
  mkdirSync(path.join(shop.folder, 'test/snapshots'));
  shop.write('test/snapshots/shop.test__a.snap', '---\nsnapshot_kind: binary\nextension: bin\n---\n1\n');
  assert.match(shop.run({ CI: '1' }).out, /The bodies agree: the header of the file lets no value pass/);
});

test('values are judged in a test that fails by itself', (t) => {
  const shop = project(t, `${head}test('a', (t) => { snapshot(t, 1); throw new Error('own'); });\n`);
  assert.match(shop.run({ SNAP_UPDATE: '1' }).out, /own/);
  assert.deepStrictEqual(shop.names(), ['shop.test__a.snap']);
});

test('modes', (t) => {
  const shop = project(t, `${head}test('a', (t) => snapshot(t, 1));\n`);
  assert.match(shop.run({ SNAP_MODE: 'yes' }).out, /SNAP_MODE is yes, and none of inplace, new, no/);
  assert.match(shop.run({ SNAP_MODE: 'no', SNAP_UPDATE: '1' }).out, /rejected/);
  assert.deepStrictEqual(shop.names(), []);
  for (const CI of ['', '0', 'False']) assert.match(shop.run({ CI }).out, /pending/);
  assert.strictEqual(shop.run({ CI: '1', SNAP_UPDATE: '1' }).status, 0);
});

test('a program that is not there', (t) => {
  const shop = project(t, `${head}test('a', (t) => snapshot(t, 1));\n`);
  const { status, out } = shop.run({ SNAP: '/nowhere/snap' });
  assert.strictEqual(status, 1);
  assert.match(out, /\/nowhere\/snap is not there: put snap on the path, or name it in SNAP/);
});

test('a program that ends half way', (t) => {
  const shop = project(t, `${head}test('a', (t) => { snapshot(t, 1); snapshot(t, 2); snapshot(t, 3); });\n`);
  shop.write('half', "#!/bin/sh\necho 'passed x'\necho 'snap: out of memory' >&2\nexit 8\n");
  chmodSync(path.join(shop.folder, 'half'), 0o755);
  const { status, out } = shop.run({ SNAP: './half' });
  assert.strictEqual(status, 1);
  assert.deepStrictEqual(out.match(/refused a.*/g), ['refused a-2', 'refused a-3']);
  assert.strictEqual(out.match(/:3: snap: out of memory/g).length, 2);
});

test('plain scripts', (t) => {
  const text = `import { Snapshots } from 'snap-testing';
const shots = new Snapshots('checks');
shots.add([1]);
shots.add({ a: 'b' }, { name: 'named' });
shots.judge();
`;
  const shop = project(t, text, 'test/plain.mjs');
  assert.strictEqual(shop.run({ SNAP_UPDATE: '1' }, ['test/plain.mjs']).status, 0);
  assert.deepStrictEqual(shop.names(), ['plain__checks.snap', 'plain__named.snap']);
  shop.write('test/plain.mjs', text.replace("'b'", "'c'").replace('[1]', '[2]'));
  const changed = shop.run({}, ['test/plain.mjs']);
  assert.strictEqual(changed.status, 1);
  assert.match(changed.out, /AssertionError.*pending/);
  assert.match(changed.out, /-- 1\n\+- 2\n/);
  assert.match(changed.out, /-a: b\n\+a: c\n/);
  shop.write('test/plain.mjs', text.replace('shots.judge();\n', ''));
  const forgotten = shop.run({}, ['test/plain.mjs']);
  assert.strictEqual(forgotten.status, 1);
  assert.match(forgotten.out, /some values were never judged: call judge\(\)/);
});
