const { inside } = require('./inside.js');
exports.name = 'folder';
exports.parent = () => inside(exports.name);
