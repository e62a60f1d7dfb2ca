import { area as size } from './shapes.cjs';
export const scaled = (by) => size(by, by);
