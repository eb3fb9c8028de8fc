/** The page to try the library: checks the body as it is typed, lists its faults, and marks them in the text. */
import { load, NotJsonError } from '../index.js';
import { EXAMPLES, FIRST } from './examples.js';

// So many faults are asked for at most.
const MOST = 500;
// A check is repeated for so many milliseconds, since the clock of a page has wide steps.
const TIMED = 5;
// What is marked at a place: a text, a number or a word, or one character.
const TOKEN = /"(?:[^"\\\n]|\\.)*"?|[-+.\w]+|[^\n]|/uy;
// What would not be seen in a path, or would turn it around.
const HIDDEN = /[\p{Cc}\p{Cf}\p{Zl}\p{Zp}]/gu;
const SAID = { empty: ['Empty', 'Type a body, or choose an example.'], valid: ['Valid', 'The body has no fault.'], broken: ['Not JSON', ''] };

const at = (selector) => document.querySelector(selector);
const [body, marks, numbers, language, example] = ['#body', '#marks', '#numbers', '#language', '#example'].map(at);
const tabs = [...document.querySelectorAll('[role=tab]')];
let own = '';

function element(name, properties, ...parts) {
  const made = Object.assign(document.createElement(name), properties);
  made.append(...parts);
  return made;
}

/** The faults of a text. One that is no JSON has its reason as a fault, at the place that it names. */
function faultsOf(library, text, options) {
  try {
    const faults = library.check(text, options);
    return { state: faults.length ? 'faulty' : 'valid', faults };
  } catch (error) {
    if (!(error instanceof NotJsonError)) throw error;
    const [line, column] = error.message.match(/\d+(?= column)|\d+$/g).map(Number);
    return { state: text ? 'broken' : 'empty', faults: text ? [{ pointer: '', detail: error.message, line, column }] : [] };
  }
}

/** What a call gives, and the milliseconds that it takes. */
function timed(call) {
  const began = performance.now();
  let [count, found, took] = [0];
  for (; !(took > TIMED); count++) {
    found = call();
    took = performance.now() - began;
  }
  return [found, took / count];
}

/** Where each fault begins in a text, in UTF-16 units. Columns count characters, but for U+FEFF at the beginning. */
function offsetsOf(text, faults) {
  const rest = [...faults].sort((one, other) => one.line - other.line || one.column - other.column);
  const found = new Map();
  let [line, column, offset] = [1, 1, text.startsWith('\ufeff') ? 1 : 0];
  for (const character of text.slice(offset)) {
    while (rest[0]?.line === line && rest[0].column === column) found.set(rest.shift(), offset);
    if (rest.length === 0) break;
    [line, column] = character === '\n' ? [line + 1, 1] : [line, column + 1];
    offset += character.length;
  }
  for (const it of rest) found.set(it, offset);
  return found;
}

/** Marks the faults in the text. Gives what is marked of each. */
function marked(text, faults) {
  const [parts, found] = [[], new Map()];
  let last = { end: 0 };
  for (const [fault, begin] of offsetsOf(text, faults)) {
    if (begin !== last.begin) {
      TOKEN.lastIndex = begin;
      const [token] = TOKEN.exec(text);
      parts.push(text.slice(last.end, begin));
      last = { begin, end: begin + token.length, mark: element('mark', {}, token) };
      parts.push(last.mark);
    }
    found.set(fault, last);
  }
  marks.replaceChildren(...parts, `${text.slice(last.end)}\n`);
  numbers.textContent = Array.from(text.split('\n'), (_, line) => line + 1).join('\n');
  return found;
}

/** Selects the text that the fault of a button is about. */
function select(button, { begin, end, mark }) {
  at('[aria-current]')?.removeAttribute('aria-current');
  button.setAttribute('aria-current', 'true');
  body.focus({ preventScroll: true });
  body.setSelectionRange(begin, end);
  mark.scrollIntoView({ block: 'nearest', inline: 'nearest' });
}

/** The entry of a fault in the list. */
function entry({ pointer, detail, line, column }, place) {
  const path = pointer.replace(HIDDEN, (it) => `\\u{${it.codePointAt().toString(16)}}`) || 'the whole body';
  const where = element('span', { className: 'where' }, element('bdi', {}, path), `line ${line}, column ${column}`);
  const button = element('button', {}, element('span', { className: 'detail', dir: 'auto', lang: language.value }, detail), where);
  button.onclick = () => select(button, place);
  return element('li', {}, button);
}

function show(state, status, hint, entries = [], answer = '', details = '') {
  document.body.dataset.state = state;
  // The same words are not announced again.
  if (at('#status').textContent !== status) at('#status').textContent = status;
  at('#faults .hint').textContent = hint;
  at('#faults ol').replaceChildren(...entries);
  at('#details .hint').textContent = answer;
  at('#details pre').textContent = details;
}

/** Checks the body, and shows what is found. */
function check(library) {
  const options = { most: MOST, places: true, language: language.value };
  const [{ state, faults }, took] = timed(() => faultsOf(library, body.value, options));
  const places = marked(body.value, faults);
  const count = `${faults.more ? 'More than ' : ''}${faults.length} ${faults.length === 1 ? 'fault' : 'faults'}`;
  const [status, hint] = SAID[state] ?? [count, faults.more ? `These are the first ${MOST}.` : ''];
  const problem = library.problem(body.value, options);
  const answer = problem ? `For an HTTP response with the status ${problem.httpStatus}.` : 'A valid body has no problem details.';
  const details = problem && JSON.stringify(JSON.parse(problem.details), null, 2);
  show(state, status, hint, faults.map((it) => entry(it, places.get(it))), answer, details);
  at('#time').textContent = `checked in ${took < 10 ? took.toPrecision(2) : took.toFixed()} ms`;
}

function open(tab) {
  for (const it of tabs) {
    it.setAttribute('aria-selected', String(it === tab));
    it.tabIndex = it === tab ? 0 : -1;
    at(`#${it.getAttribute('aria-controls')}`).hidden = it !== tab;
  }
  tab.focus();
}

/** Goes to the tab beside the one that has the focus. */
function turn({ key, target }) {
  const step = { ArrowRight: 1, ArrowLeft: tabs.length - 1 }[key] ?? 0;
  open(tabs[(tabs.indexOf(target) + step) % tabs.length]);
}

async function start() {
  const bodies = EXAMPLES.flatMap(([, rows]) => rows.map(([, text]) => text));
  const option = ([name, text]) => element('option', { value: bodies.indexOf(text), textContent: name });
  example.append(...EXAMPLES.map(([label, rows]) => element('optgroup', { label }, ...rows.map(option))));
  [example.value, body.value] = [FIRST, bodies[FIRST]];
  tabs.forEach((it) => { it.onclick = () => open(it); });
  at('[role=tablist]').onkeydown = turn;
  at('#rules pre').textContent = await (await fetch('rules.rs')).text();
  const library = await load();
  const again = () => {
    try { check(library); } catch (error) { show('broken', 'No answer', error.message); }
  };
  body.oninput = () => {
    own = body.value;
    example.value = '';
    again();
  };
  language.onchange = again;
  example.onchange = () => {
    body.value = bodies[example.value] ?? own;
    at('.editor').scrollTo(0, 0);
    again();
  };
  // Twice, since the first calls compile the module.
  again();
  again();
}

start().catch((error) => show('broken', 'The module did not load', error.message));
