/**
 * from_node.js FOLDER SECONDS: what `value` of the package in FOLDER costs, beside `JSON.parse` and then ajv, from bytes on. They run by
 * turns. Prints rows as JSON: lines, and the least microseconds of each.
 */
'use strict';

const { join } = require('node:path');
const [folder, seconds] = process.argv.slice(2);
const { isValid, value } = require(join(folder, 'index.js'));
const Ajv = require('ajv');

const LINE = {
  type: 'object', additionalProperties: false, required: ['code', 'count'],
  properties: { code: { type: 'string', pattern: '^P' }, count: { type: 'integer', minimum: 1, maximum: 99 } },
};
const ORDER = {
  type: 'object', additionalProperties: false, required: ['customer', 'lines'],
  properties: { customer: { type: 'string', minLength: 1, maxLength: 80 }, lines: { type: 'array', minItems: 1, maxItems: 50, items: LINE } },
};
const validate = new Ajv().compile(ORDER);

function byAjv(body) {
  const found = JSON.parse(body.toString());
  if (!validate(found)) throw new Error('ajv finds a fault');
  return found;
}

/** Processor microseconds of so many calls, which other programs disturb less than the time of the clock. */
function taken(call, body, count) {
  const before = process.cpuUsage();
  for (let n = 0; n < count; n++) call(body);
  const { user, system } = process.cpuUsage(before);
  return (user + system) / count;
}

/** The least time of each call, by turns of about 10 ms. */
function least(calls, body) {
  const best = calls.map(() => Infinity);
  const end = Date.now() + 1000 * seconds;
  const count = Math.ceil(2_000_000 / (200 + 40 * body.length));
  while (Date.now() < end) calls.forEach((call, i) => { best[i] = Math.min(best[i], taken(call, body, count)); });
  return best;
}

const rows = [3, 50].map((count) => {
  const body = Buffer.from(JSON.stringify({ customer: 'Ada', lines: Array(count).fill({ code: 'P1', count: 1 }) }));
  return [count, ...least([isValid, value, byAjv], body)];
});
console.log(JSON.stringify(rows));
