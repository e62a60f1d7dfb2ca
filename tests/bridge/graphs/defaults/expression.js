console.log('expression');
export default 6 * 7;
