const helper = () => 'left helper';
export const value = 'left', label = helper();
