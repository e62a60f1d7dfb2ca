export const odd = 'odd';
