const { check, problem, isValid, value } = require('./index.js');
for (const call of [check, problem, isValid, value]) {
  try { call(Buffer.from('{}')); } catch (error) { console.log(error.message, error.code); }
}
