/** The bodies to begin with: groups of a name and a text each. Put those of your type here. */
const line = '{"code": "P1", "count": 1}';
const bodyOf = (lines, customer = '"Ada"') => `{\n  "customer": ${customer},\n  "lines": [\n    ${lines.join(',\n    ')}\n  ]\n}`;

export const EXAMPLES = [
  ['Valid', [
    ['One line', bodyOf([line])],
    ['Other letters', bodyOf(['{"code": "P-шест", "count": 99}'], '"Žofie \\u0141 علي"')],
  ]],
  ['Faults', [
    ['Several', bodyOf(['{"code": "P22", "count": 0}', '{"code": "Q7", "count": "2", "note": "soon"}', '{"count": 4294967296}'], '""')],
    ['A member is missing', '{\n  "customer": "Ada"\n}'],
    ['A member is unknown', bodyOf([line, '{"code": "P1", "count": 1, "price": 9}'])],
    ['A member comes twice', bodyOf(['{"code": "P1", "count": 1, "count": 2}'])],
    ['Other types', bodyOf(['{"code": null, "count": 1.5}', '[]'], '["Ada"]')],
    ['Too long, too large', bodyOf([line, '{"code": "P1", "count": 100}'], `"${'Ada '.repeat(21)}"`)],
    ['No lines', '{"customer": "Ada", "lines": []}'],
    ['No object', '"Ada"'],
  ]],
  ['Not JSON', [
    ['A comma too many', bodyOf([`${line},`])],
    ['Half of a body', bodyOf([line]).slice(0, 40)],
  ]],
  ['Hostile', [
    ['200 lists deep', `{"customer": ${'['.repeat(200)}${']'.repeat(200)}, "lines": [${line}]}`],
    ['A member 1,000 times', `{\n${'  "customer": "Ada",\n'.repeat(1000)}  "lines": [${line}]\n}`],
    ['Half of a surrogate pair', bodyOf([line], '"\\ud800"')],
    ['Numbers of 400 digits', bodyOf([`{"code": "P1", "count": ${'9'.repeat(400)}}`, `{"code": "P1", "count": 0.${'0'.repeat(398)}1}`])],
    ['Names that turn and hide', bodyOf(['{"code": "P1", "count": 1, "\u202etnuoc": 1, "count\u200b": 1, "a\\u0000b": 1, "عدد": 2}'])],
    ['20,000 lines', bodyOf(Array(20000).fill('{"code": "Q", "count": 0}'))],
  ]],
];

/** The number of the body that is there first. */
export const FIRST = 2;
