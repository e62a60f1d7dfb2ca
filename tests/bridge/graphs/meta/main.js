// `import.meta` of several modules keeps what Node gives there.
import { where, folder } from './below/where.js';
import path from 'node:path';
console.log(path.basename(import.meta.url), where, folder, import.meta.missing);
const { url, ...others } = import.meta;
console.log(typeof url, Object.keys(others).filter((key) => key === 'url').length);
