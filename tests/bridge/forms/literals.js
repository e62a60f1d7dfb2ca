"use strict";
// Literals, templates and names, in each of their spellings (ECMA-262, 12 and 13.2).
const show = (...values) => console.log(...values.map((value) => (typeof value === 'bigint' ? `${value}n` : JSON.stringify(value) ?? String(value))));

show(0, 1, 1.5, .5, 5., 1e3, 1E-3, 0x1F, 0XaB, 0o17, 0O7, 0b101, 0B11, 1_000_000);
show(0n, 123n, 0xFFn, 0b11n, 0o17n, 1_000n);
show('single', "double", 'it\'s', "a \"quote\"", '\n\t\\\0', '\x41\u0042\u{1F600}', 'line\
 continued', "  ", 'größe', '');
show(true, false, null, undefined);
show(/a+/.test('caat'), /[/\]]+/gi.flags, /(?<year>\d{4})/u.exec('in 2022').groups.year, /^b/dgimsuy.flags, /\//.source);
show(``, `plain`, `one ${1 + 1} two ${`inner ${'deep'}`}`, `line
two`, `\u0041\``, `$ {x} \${y}`);
const tag = (strings, ...values) => [strings.raw, [...strings], values];
show(tag`a${1}\n${2}\unicode`, tag``, String.raw`\x`);
const ünïcödé = 1, $dollar = 2, _under = 3, \u{61}bc = 4;
show(ünïcödé + $dollar + _under + abc);
show(1..toString(), 1.0.toFixed(1), 5 .toString(), 1_0.0.toString(), 0x10.toString(), 1e3.toString());
debugger;
;
