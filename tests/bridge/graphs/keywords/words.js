export const abstract = 'abstract';
const int = 'int', native = int + '!';
export { native as int };
