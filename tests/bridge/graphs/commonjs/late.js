console.log('late runs');
module.exports = { value: 'late' };
