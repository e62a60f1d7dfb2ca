export const both = 'script';
