const helper = () => 'right helper';
export const value = 'right', label = helper();
