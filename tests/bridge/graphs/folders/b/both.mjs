export const both = 'module';
