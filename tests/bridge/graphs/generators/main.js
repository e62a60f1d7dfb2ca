// Generators, templates, patterns and optional chains across modules.
import { range, later } from './range.js';
import { tag, settings } from './tag.js';
const [first, , ...rest] = range(5);
const { depth: { level = first, ...others } = {}, list: [head = range] = [] } = settings;
console.log(first, rest.join(), level, JSON.stringify(others), typeof head);
console.log(tag`a${first}b${level}\n`, settings?.missing?.deep ?? 'none', settings.call?.(2), settings.call?.missing?.());
for await (const value of later(range(2))) console.log('later', value);
