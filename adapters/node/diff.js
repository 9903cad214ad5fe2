// A unified diff of two texts, by Myers' greedy search.

/** Lines of context around a change. */
const CONTEXT = 3;

/** The most removed and added lines that are searched for; beyond that the part that changed is shown as replaced. */
const MOST_CHANGES = 500;

/** Returns the diff as `diff -u` prints it, without its last line end; '' where the texts have the same lines. */
export function unifiedDiff(before, after, beforeName, afterName) {
  const edits = editsBetween(linesOf(before), linesOf(after));
  const parts = hunks(edits).map((hunk) => `@@ -${range(hunk, '+')} +${range(hunk, '-')} @@\n${hunk.lines.join('\n')}`);
  return parts.length ? [`--- ${beforeName}`, `+++ ${afterName}`, ...parts].join('\n') : '';
}

function linesOf(text) {
  const lines = text.split('\n');
  if (lines.at(-1) === '') lines.pop();
  return lines;
}

/** A list of lines, each with ' ' (kept), '-' (removed) or '+' (added) in front. */
function editsBetween(old, now) {
  let start = 0;
  while (start < old.length && start < now.length && old[start] === now[start]) start += 1;
  let end = 0;
  while (end < old.length - start && end < now.length - start && old.at(-1 - end) === now.at(-1 - end)) end += 1;
  const keep = (line) => ` ${line}`;
  return [
    ...old.slice(0, start).map(keep),
    ...search(old.slice(start, old.length - end), now.slice(start, now.length - end)),
    ...old.slice(old.length - end).map(keep),
  ];
}

/** The shortest edits, found by the furthest line that 0, 1, 2 .. changes reach on each diagonal. */
function search(old, now) {
  const reached = [];
  let furthest = new Map([[1, 0]]);
  for (let changes = 0; changes <= Math.min(MOST_CHANGES, old.length + now.length); changes += 1) {
    reached.push(furthest);
    const next = new Map();
    for (let diagonal = -changes; diagonal <= changes; diagonal += 2) {
      let at = comesDown(furthest, diagonal) ? furthest.get(diagonal + 1) : furthest.get(diagonal - 1) + 1;
      while (at < old.length && old[at] === now[at - diagonal]) at += 1;
      next.set(diagonal, at);
      if (at >= old.length && at - diagonal >= now.length) return walkBack(reached, old, now);
    }
    furthest = next;
  }
  return [...old.map((line) => `-${line}`), ...now.map((line) => `+${line}`)];
}

/** Whether the best way to `diagonal` adds a line, and doesn't remove one. */
function comesDown(furthest, diagonal) {
  const added = furthest.get(diagonal + 1) ?? -1;
  const removed = furthest.get(diagonal - 1) ?? -1;
  return added > removed;
}

function walkBack(reached, old, now) {
  const edits = [];
  let at = old.length;
  let diagonal = old.length - now.length;
  for (let changes = reached.length - 1; changes >= 0; changes -= 1) {
    const down = comesDown(reached[changes], diagonal);
    const from = changes === 0 ? 0 : reached[changes].get(down ? diagonal + 1 : diagonal - 1);
    const afterChange = changes === 0 ? 0 : from + (down ? 0 : 1);
    while (at > afterChange) edits.push(` ${old[(at -= 1)]}`);
    if (changes > 0) {
      edits.push(down ? `+${now[at - diagonal - 1]}` : `-${old[from]}`);
      at = from;
      diagonal += down ? 1 : -1;
    }
  }
  return edits.reverse();
}

/** Groups the edits: each change with its context, neighbours together; `old` and `now` count lines from 1. */
function hunks(edits) {
  const found = [];
  let old = 1;
  let now = 1;
  let lastChange = -Infinity;
  edits.forEach((edit, index) => {
    if (edit[0] !== ' ') {
      if (index - lastChange - 1 > 2 * CONTEXT) {
        const kept = Math.min(CONTEXT, index);
        found.push({ old: old - kept, now: now - kept, first: index - kept });
      }
      lastChange = index;
      found.at(-1).last = index;
    }
    if (edit[0] !== '+') old += 1;
    if (edit[0] !== '-') now += 1;
  });
  return found.map((hunk) => ({ ...hunk, lines: edits.slice(hunk.first, hunk.last + 1 + CONTEXT) }));
}

/** The line and the count of one side, `absent` being the mark of the lines that it doesn't have. */
function range(hunk, absent) {
  const count = hunk.lines.filter((line) => line[0] !== absent).length;
  const first = absent === '+' ? hunk.old : hunk.now;
  if (count === 0) return `${first - 1},0`;
  return count === 1 ? String(first) : `${first},${count}`;
}
