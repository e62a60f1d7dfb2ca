console.log('shapes run');
exports.area = (width, height) => width * height;
exports.unit = 'cm';
