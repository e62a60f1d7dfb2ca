export const here = 'b';
export const up = 'up';
