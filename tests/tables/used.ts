import { check, isValid, problem, value, Checker, Faults, FaultsError, NotJsonError, FAULTS } from './index';
const body: Buffer = Buffer.from('{}');
const faults: Faults = check(body, { most: 20, language: 'cs' });
const texts: string[] = faults.map((it) => it.pointer + it.detail + it.code + it.params['min']);
const found = problem(new Uint8Array(3));
if (found !== null && found.status === FAULTS) console.log(found.httpStatus, found.details.length, faults.more, texts);
const customer: string = value<{ customer: string }>(body, { most: 2 }).customer + typeof new Checker().value(body);
const valid: boolean = isValid(body);
try { new Checker().check(body); } catch (error) { if (error instanceof NotJsonError) console.log(error.details, customer); else if (error instanceof FaultsError) console.log(error.faults.length); }
