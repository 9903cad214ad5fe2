// Snapshots for node:test and plain scripts, judged by `snap`: see README.md.

import { AssertionError } from 'node:assert';
import { spawnSync } from 'node:child_process';
import { existsSync, mkdtempSync, readFileSync, rmSync } from 'node:fs';
import { tmpdir } from 'node:os';
import path from 'node:path';
import { fileURLToPath } from 'node:url';
import { unifiedDiff } from './diff.js';
import { Refusal, toJson } from './values.js';

const MODES = ['inplace', 'new', 'no'];

/** The statuses with which the program refuses one request, the first without a line, and leaves those after it. */
const REFUSES_ONE = [3, 5];

/** The bytes of a file's name, less those that the program adds for a file that it is writing. */
const LONGEST_FILE_NAME = 255 - '.snap.new'.length;

const batches = new WeakMap();
const unjudged = new Set();

/** How often each test of each file has taken a name of its own, and what has taken each snapshot. */
const counts = new Map();
const owners = new Map();

/**
 * Hands `value` over as a snapshot of the test `t`. All values of a test are judged when it ends, by one run of the
 * program; where one fails, so does the test. Returns nothing.
 * Options: `name`, in place of the test's own; `redact`, an object of selectors and what is put there; `sort`, true to
 * sort all maps, or a list of selectors of what is to be sorted.
 */
export function snapshot(t, value, options = {}) {
  if (typeof t?.after !== 'function') throw new TypeError('snapshot: the first argument is no context of a node:test test');
  let batch = batches.get(t);
  if (!batch) {
    batch = new Snapshots(t.fullName ?? t.name);
    batches.set(t, batch);
    t.after(() => batch.judge());
  }
  batch.take(value, options, callSite(snapshot));
}

/** The same for a script without a test runner: values are added, and `judge` throws where one fails. */
export class Snapshots {
  #title;
  #requests = [];
  #failures = [];

  /** `title` names the values that have no name of their own. */
  constructor(title) {
    if (typeof title !== 'string') throw new TypeError('Snapshots: the title is no text');
    this.#title = title;
  }

  /** Adds a value; the options are those of `snapshot`. */
  add(value, options = {}) {
    this.take(value, options, callSite(this.add));
  }

  /** Adds a value that was handed over at `site`. What can't be handed over is kept as a failure, for `judge`. */
  take(value, options, site) {
    unjudged.add(this);
    const { name = this.#nextName(site.file), redact = {}, sort = false, ...others } = options;
    const [unknown] = Object.keys(others);
    if (unknown !== undefined) throw new TypeError(`snapshot: there is no option ${unknown}`);
    const request = { module: path.parse(site.file).name, name, line: site.line, file: site.file, expr: this.#title };
    try {
      claim(request);
      this.#requests.push({ ...request, rest: restOf(value, redact, sort) });
    } catch (error) {
      if (!(error instanceof Refusal)) throw error;
      this.#fail(`refused ${name}\n${site.file}:${site.line}: ${error.message}`);
    }
  }

  /** Judges all values since the last call. Throws one AssertionError that tells of each that fails. */
  judge() {
    unjudged.delete(this);
    const requests = this.#requests.splice(0);
    if (requests.length) this.#run(requests);
    const failures = this.#failures.splice(0);
    if (!failures.length) return;
    const [{ stored, now }] = failures;
    const message = failures.map((failure) => failure.message).join('\n\n');
    throw new AssertionError({ message, expected: stored, actual: now, operator: 'snapshot', stackStartFn: this.judge });
  }

  #fail(message, stored, now) {
    this.#failures.push({ message, stored, now });
  }

  #nextName(file) {
    const key = `${file}\n${this.#title}`;
    const count = (counts.get(key) ?? 0) + 1;
    counts.set(key, count);
    return count === 1 ? this.#title : `${this.#title}-${count}`;
  }

  #run(requests) {
    const workspace = workspaceOf(requests[0].file);
    const mode = modeOf(process.env);
    const { lines, status, words } = runProgram(mode, workspace, requests.map((request) => documentOf(request, workspace)));
    requests.slice(0, lines.length).forEach((request, at) => {
      const blank = lines[at].indexOf(' ');
      const verdict = lines[at].slice(0, blank);
      if (verdict !== 'passed' && verdict !== 'updated') this.#tell(request, verdict, lines[at].slice(blank + 1), workspace);
    });
    const rest = requests.slice(lines.length);
    if (!rest.length) return;
    const one = REFUSES_ONE.includes(status);
    const reasons = reasonsOf(lines.length, workspace, requests.map((request) => documentOf(request, workspace)));
    for (const request of one ? rest.slice(0, 1) : rest) {
      const advice = status === 3 && !reasons ? ' (is a selector wrong?)' : '';
      this.#fail(`refused ${request.name}\n${request.file}:${request.line}: ${words}${advice}${reasons}`);
    }
    if (one && rest.length > 1) this.#run(rest.slice(1));
  }

  /** Keeps a failure with a diff of the stored and the new body; what is new is taken from a run in a scratch folder. */
  #tell(request, verdict, flatPath, workspace) {
    const file = path.join(workspace, flatPath.startsWith('"') ? JSON.parse(flatPath) : flatPath);
    const isStored = existsSync(file);
    const stored = isStored ? bodyOf(readFileSync(file, 'utf8')) : '';
    const now = newBody(request);
    const diff = unifiedDiff(stored, now, isStored ? 'stored' : '/dev/null', 'new');
    const what = isStored ? 'the value changed' : 'no value is stored yet';
    const head = `${verdict} ${file}\n${request.file}:${request.line}: ${what}; SNAP_UPDATE=1 approves it`;
    this.#fail(`${head}\n${diff || 'The bodies agree: the header of the file lets no value pass.'}`, stored, now);
  }
}

// A script that forgets `judge` must not look like one whose values passed.
process.on('exit', () => {
  if (!unjudged.size) return;
  console.error('snap-testing: some values were never judged: call judge()');
  process.exitCode = 1;
});

/** Where the nearest caller of the function `above` stands: its file, as an absolute path, and its line. */
function callSite(above) {
  const prepare = Error.prepareStackTrace;
  Error.prepareStackTrace = (_, sites) => sites;
  try {
    const trace = {};
    Error.captureStackTrace(trace, above);
    const name = trace.stack[0]?.getFileName();
    if (!name) throw new TypeError('snapshot: called from code that stands in no file');
    return { file: name.startsWith('file:') ? fileURLToPath(name) : name, line: trace.stack[0].getLineNumber() };
  } finally {
    Error.prepareStackTrace = prepare;
  }
}

/** Keeps two values from one snapshot. Throws a Refusal for a name that is taken, or that can't be a file's. */
function claim({ file, module, name }) {
  if (typeof name !== 'string' || name === '') throw new Refusal('the name: no text, or an empty one');
  if (/[\p{Cc}\p{Surrogate}]/u.test(name)) throw new Refusal('the name: a control character or a lone surrogate');
  const base = `${module}__${name.replace(/[/\\]/g, '__')}`;
  if (Buffer.byteLength(base) > LONGEST_FILE_NAME) throw new Refusal(`the name: longer than a file's; give a shorter one`);
  const snap = path.join(path.dirname(file), base);
  if (owners.has(snap)) throw new Refusal('the name: another value has it in this run; give one of its own');
  owners.set(snap, true);
}

/** The part of a request that its value and the options make, from `"value":` on. */
function restOf(value, redact, sort) {
  if (sort !== Boolean(sort) && !Array.isArray(sort)) throw new TypeError('snapshot: sort is neither true nor a list of selectors');
  const put = Object.entries(redact).map(([at, tree]) => `{"at":${toJson(at, 'redact')},"put":${toJson(tree, `redact ${at}`)}}`);
  const sorted = (Array.isArray(sort) ? sort : []).map((at) => `{"at":${toJson(at, 'sort')},"sort":true}`);
  return `"value":${toJson(value)},"redactions":[${[...put, ...sorted].join(',')}],"sort":${sort === true}}`;
}

function documentOf({ module, file, line, name, expr, rest }, workspace) {
  const head = { module, file: path.relative(workspace, file).split(path.sep).join('/'), line, name, expr };
  return `---\n${JSON.stringify(head).slice(0, -1)},${rest}\n`;
}

/** The nearest folder above `file` with a package.json, else the current folder. */
function workspaceOf(file) {
  for (let folder = path.dirname(file); ; folder = path.dirname(folder)) {
    if (existsSync(path.join(folder, 'package.json'))) return folder;
    if (folder === path.dirname(folder)) return process.cwd();
  }
}

/** SNAP_MODE, else inplace where SNAP_UPDATE is 1, else no where CI says yes, else new. */
function modeOf({ SNAP_MODE, SNAP_UPDATE, CI }) {
  if (SNAP_MODE) {
    if (MODES.includes(SNAP_MODE)) return SNAP_MODE;
    throw new TypeError(`SNAP_MODE is ${SNAP_MODE}, and none of ${MODES.join(', ')}`);
  }
  if (SNAP_UPDATE === '1') return 'inplace';
  return saysYes(CI) ? 'no' : 'new';
}

/** Whether a variable is set to anything but nothing, `0`, `no` and `false`, in any case. */
function saysYes(text = '') {
  return !['', '0', 'no', 'false'].includes(text.toLowerCase());
}

/** Runs the program over the documents. Returns its lines, its status and what it said on standard error. */
function runProgram(mode, workspace, documents) {
  const program = process.env.SNAP || 'snap';
  const command = program.includes('/') ? path.resolve(program) : program;
  const input = documents.join('');
  const run = spawnSync(command, ['run', mode, '.', '--literal'], { cwd: workspace, input, encoding: 'utf8', maxBuffer: Infinity });
  if (run.error?.code === 'ENOENT') throw new Error(`${program} is not there: put snap on the path, or name it in SNAP`);
  if (run.error && run.error.code !== 'EPIPE') throw run.error;
  const words = run.stderr.trim() || `snap ended with ${run.signal ?? `status ${run.status}`}`;
  return { lines: run.stdout.split('\n').slice(0, -1), status: run.status, words };
}

/** What `snap-explain` says of the document at this place, each on a line of its own; '' where it isn't beside the program. */
function reasonsOf(place, workspace, documents) {
  const explain = path.join(path.dirname(foundProgram()), 'snap-explain');
  const env = { ...process.env, SNAP_AS_BUILT: '1' };
  const run = spawnSync(explain, ['stream', '.', '--literal'], { cwd: workspace, input: documents.join(''), encoding: 'utf8', maxBuffer: Infinity, env });
  const told = (run.stdout ?? '').split('\n').filter((line) => line.startsWith(`document ${place + 1}, `));
  return told.map((line) => `\n${line}`).join('');
}

/** The program's file: what SNAP names, or else the first on the path. */
function foundProgram() {
  const program = process.env.SNAP || 'snap';
  if (program.includes('/')) return path.resolve(program);
  const folders = (process.env.PATH ?? '').split(path.delimiter);
  return folders.map((folder) => path.resolve(folder, program)).find(existsSync) ?? program;
}

/** The text that the value of a request has in a snapshot. */
function newBody(request) {
  const scratch = mkdtempSync(path.join(tmpdir(), 'snap-testing-'));
  try {
    const alone = { ...request, module: 'm', name: 'n', file: path.join(scratch, 'f') };
    runProgram('new', scratch, [documentOf(alone, scratch)]);
    return bodyOf(readFileSync(path.join(scratch, 'snapshots', 'm__n.snap.new'), 'utf8'));
  } finally {
    rmSync(scratch, { recursive: true });
  }
}

/** What stands below the header, without what doesn't count: carriage returns at line ends, white space at the end. */
function bodyOf(text) {
  const lines = text.replace(/\r\n/g, '\n').split('\n');
  const hasHeader = lines[0].trimEnd() === '---';
  const end = lines.findIndex((line, at) => at > 0 && line.trimEnd() === (hasHeader ? '---' : ''));
  return `${lines.slice(end + 1).join('\n').trimEnd()}\n`;
}
