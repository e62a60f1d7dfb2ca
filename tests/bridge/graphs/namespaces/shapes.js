export const square = (side) => side * side;
export const cube = (side) => side ** 3;
export default function circle() { return 'circle'; }
