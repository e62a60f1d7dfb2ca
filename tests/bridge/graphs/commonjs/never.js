console.log('never runs');
module.exports = {};
