/**
 * check [LANGUAGE]: checks the body on standard input, writes the problem details of what is wrong to standard output, and ends
 * with the status of the check. Where memory runs out it ends with 3, and where anything else fails with 10.
 *
 * Of a library that takes a schema it is check SCHEMA [LANGUAGE], with the file of one. The details of a schema that is none are
 * written too, and it ends with 10.
 */
import { readFileSync, writeFileSync } from 'node:fs';

const FAILED = 10;

try {
  const { load } = await import('./index.js');
  let checker = await load();
  let failed;
  // begin: of a schema
  const schema = readFileSync(process.argv.splice(2, 1)[0]);
  const wrong = checker.problem(schema);
  if (wrong === null) checker = checker.validator(schema);
  else failed = { ...wrong, status: FAILED };
  // end: of a schema
  const found = failed ?? checker.problem(readFileSync(0), { language: process.argv[2] });
  if (found !== null) writeFileSync(1, found.details);
  process.exitCode = found?.status ?? 0;
} catch (error) {
  process.exitCode = error.code === 'ERR_MEMORY_ALLOCATION_FAILED' ? 3 : FAILED;
  console.error(`check: ${error.message}`);
}
