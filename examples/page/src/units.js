// The units in which distances are shown.
const UNITS = {
  AU: { title: 'astronomical units', perAU: 1 },
  light: { title: 'minutes of light', perAU: 8.316746 },
};

export function unitOf(name) {
  if (!Object.hasOwn(UNITS, name)) {
    throw new TypeError(`no unit is named ${name}`);
  }
  return UNITS[name];
}
