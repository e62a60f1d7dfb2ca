// Kepler's third law: the squares of the periods are as the cubes of the distances.
import { axisBottom, axisLeft, format, line, scaleLog } from 'd3';
import { placed, widthOf } from './labels.js';

const YEAR = 365.256363;
const MARGIN = { top: 14, right: 56, bottom: 38, left: 52 };

export function createLaws(figure, { width, height }, bodies, select$) {
  const x = scaleLog([0.3, 50], [MARGIN.left, width - MARGIN.right]);
  const y = scaleLog([0.15, 400], [height - MARGIN.bottom, MARGIN.top]);
  const svg = figure.append('svg').attr('width', width).attr('height', height);

  svg.append('g').attr('class', 'axis').attr('transform', `translate(0, ${height - MARGIN.bottom})`)
    .call(axisBottom(x).tickValues([0.3, 1, 3, 10, 30]).tickFormat(format('~r')));
  svg.append('g').attr('class', 'axis').attr('transform', `translate(${MARGIN.left}, 0)`)
    .call(axisLeft(y).tickValues([0.3, 1, 3, 10, 30, 100, 300]).tickFormat(format('~r')).tickSize(-(width - MARGIN.left - MARGIN.right)));
  svg.append('text').attr('class', 'unit').attr('x', width - MARGIN.right).attr('y', height - 6).attr('text-anchor', 'end')
    .text('mean distance from the Sun, AU');
  svg.append('text').attr('class', 'unit').attr('x', MARGIN.left + 8).attr('y', MARGIN.top + 4).text('period, years');
  svg.append('path').attr('class', 'law').attr('d', line().x(x).y((axis) => y(axis ** 1.5))(x.domain()));

  const dots = svg.selectAll('.dot').data(bodies).join('g').attr('class', 'dot')
    .attr('transform', ({ orbit }) => `translate(${x(orbit.axis)}, ${y(orbit.period / YEAR)})`)
    .on('click', (body) => select$.next(body.name));
  dots.append('circle').attr('fill', (body) => body.colour);
  const names = dots.append('text').text((body) => body.name).attr('fill', (body) => body.colour);
  const middles = placed(bodies.map(({ orbit }, i) =>
    ({ x: x(orbit.axis), y: y(orbit.period / YEAR), size: 6, width: widthOf(names.nodes()[i]) })));
  names.attr('x', ({ orbit }, i) => middles[i].x - x(orbit.axis)).attr('y', ({ orbit }, i) => middles[i].y - y(orbit.period / YEAR));

  return (day, selected) => {
    dots.classed('selected', (body) => body === selected).select('circle').attr('r', (body) => (body === selected ? 6.5 : 4));
  };
}
