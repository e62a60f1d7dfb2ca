exports.own = ((require) => require('./nowhere'))((text) => `own ${text}`);
