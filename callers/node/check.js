/**
 * check [LANGUAGE]: checks the body on standard input, writes the problem details of what is wrong to standard output, and ends
 * with the status of the check. Where memory runs out it ends with 3, and where anything else fails with 10.
 *
 * Of a library that takes a schema it is check SCHEMA [LANGUAGE], with the file of one. The details of a schema that is none are
 * written too, and it ends with 10.
 */
'use strict';

const { readFileSync, writeFileSync } = require('node:fs');

const MEMORY = 3;
const FAILED = 10;

function main() {
  let checker = require('./index.js');
  // begin: of a schema
  const schema = readFileSync(process.argv.splice(2, 1)[0]);
  const wrong = checker.problem(schema);
  if (wrong !== null) {
    writeFileSync(1, wrong.details);
    return FAILED;
  }
  checker = new checker.Validator(schema);
  // end: of a schema
  const found = checker.problem(readFileSync(0), { language: process.argv[2] });
  if (found === null) return 0;
  writeFileSync(1, found.details);
  return found.status;
}

try {
  process.exitCode = main();
} catch (error) {
  process.exitCode = error.code === 'ERR_MEMORY_ALLOCATION_FAILED' ? MEMORY : FAILED;
  console.error(`check: ${error.message}`);
}
