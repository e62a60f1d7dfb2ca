export const fail = () => null;
throw new RangeError('of the module');
