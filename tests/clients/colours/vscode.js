// Writes down, for each character of a text on standard input, the letter of its colour, by the grammar of the extension for
// VS Code. This reads grammars as VS Code does as far as that one goes: rules with match, or with begin and end over lines,
// includes, captures with rules of their own; the leftmost match counts, and of those the end and then the first rule.
const fs = require('fs');

const grammar = JSON.parse(fs.readFileSync(process.argv[2], 'utf8'));

const LETTERS = [
  ['entity.name.function', 'N'], ['keyword', 'O'], ['support.function', 'O'], ['meta.operands', 'P'], ['storage.type', 'P'],
  ['variable', 'V'], ['string', 'Q'], ['comment.line.asterisk', 'C'], ['comment.line.remarks', 'R'],
  ['comment.line.unread', 'S'], ['constant.other.mark', 'M'], ['invalid.illegal.margin', 'E'],
];

function letterOf(scope) {
  const found = LETTERS.find(([start]) => scope.startsWith(start));
  return found ? found[1] : '?';
}

const compiled = new Map();
function expression(source) {
  if (!compiled.has(source)) {
    const insensitive = source.includes('(?i:'); // the whole of such an expression, which has no letters besides
    compiled.set(source, new RegExp(source.replace('(?i:', '(?:'), insensitive ? 'dgui' : 'dgu'));
  }
  return compiled.get(source);
}

function firstMatch(source, line, at) {
  const it = expression(source);
  it.lastIndex = at;
  return it.exec(line);
}

// The rules of a list, with includes replaced by what they name.
function rulesIn(patterns) {
  return (patterns || []).flatMap((rule) => {
    const named = rule.include ? grammar.repository[rule.include.slice(1)] : rule;
    return named.match || named.begin ? [named] : rulesIn(named.patterns);
  });
}

class Row {
  constructor(line) {
    this.line = line;
    this.letters = Array(line.length).fill('?');
  }

  paint(from, to, scope) {
    if (scope) this.letters.fill(letterOf(scope), from, to);
  }

  paintCaptures(match, captures) {
    for (const [number, capture] of Object.entries(captures || {})) {
      const place = match.indices[number];
      if (!place) continue;
      this.paint(...place, capture.name);
      for (const rule of rulesIn(capture.patterns)) {
        for (const inner of this.line.slice(...place).matchAll(expression(rule.match))) {
          this.paint(place[0] + inner.index, place[0] + inner.index + inner[0].length, rule.name);
        }
      }
    }
  }

  text() {
    return this.letters.map((letter, at) => (/\s/.test(this.line[at]) ? ' ' : letter)).join('').trimEnd();
  }
}

// What comes next in a line: the end of the innermost region, or a rule of it.
function next(stack, line, at) {
  const top = stack[stack.length - 1];
  const found = top.end ? [{ match: firstMatch(top.end, line, at), ends: true }] : [];
  for (const rule of rulesIn(top.patterns)) {
    found.push({ match: firstMatch(rule.match || rule.begin, line, at), rule });
  }
  return found.filter((it) => it.match).reduce((best, it) => (best && best.match.index <= it.match.index ? best : it), null);
}

function readLine(stack, line) {
  const row = new Row(line);
  let at = 0;
  for (let steps = 0; ; steps++) {
    if (steps > 1000) throw new Error(`endless: ${line}`);
    const found = next(stack, line, at);
    const top = stack[stack.length - 1];
    const until = found ? found.match.index : line.length;
    row.paint(at, until, top.name || top.outer);
    if (!found) return row.text();
    at = until + found.match[0].length;
    if (found.ends) {
      row.paint(until, at, top.name || top.outer);
      row.paintCaptures(found.match, top.endCaptures);
      stack.pop();
    } else if (found.rule.match) {
      row.paint(until, at, found.rule.name || top.name || top.outer);
      row.paintCaptures(found.match, found.rule.captures);
    } else {
      row.paint(until, at, found.rule.name || top.name || top.outer);
      row.paintCaptures(found.match, found.rule.beginCaptures);
      stack.push({ ...found.rule, outer: top.name || top.outer });
    }
  }
}

const lines = fs.readFileSync(0, 'utf8').split('\n');
if (lines[lines.length - 1] === '') lines.pop();
const stack = [{ patterns: grammar.patterns }];
for (const line of lines) console.log(readLine(stack, line));
