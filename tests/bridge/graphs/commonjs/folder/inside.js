exports.inside = (name) => `inside ${name} ${typeof require('../math').add}`;
