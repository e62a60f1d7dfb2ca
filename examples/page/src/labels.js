// Finds a place for a text beside each point, where it covers no other text and no point.
const SIDES = [[1, 0], [-1, 0], [0, -1], [0, 1], [1, -1], [-1, -1], [1, 1], [-1, 1]];
const HEIGHT = 12;

/** The width of a text, also where it is bold. */
export const widthOf = (text) => text.getComputedTextLength() * 1.13;

const overlaps = (a, b) =>
  a.left < b.left + b.width && b.left < a.left + a.width && a.top < b.top + b.height && b.top < a.top + a.height;

/** Of points with x, y, their size and the text's width: the place of each text's middle. */
export function placed(points) {
  const taken = points.map(({ x, y, size }) => ({ left: x - size, top: y - size, width: 2 * size, height: 2 * size }));
  return points.map(({ x, y, size, width }, own) => {
    const boxes = SIDES.map(([right, down]) => {
      const middle = { x: x + right * (size + 5 + width / 2), y: y + down * (size + 5 + HEIGHT / 2) };
      return { middle, left: middle.x - width / 2, top: middle.y - HEIGHT / 2, width, height: HEIGHT };
    });
    const free = boxes.find((box) => !taken.some((other, i) => i !== own && overlaps(box, other))) ?? boxes[0];
    taken.push(free);
    return free.middle;
  });
}
