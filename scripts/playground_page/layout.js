// Where the boxes of a graph are: in columns, each above all that lead to it, and by which points the lines lead
// that pass by a column.
export const BETWEEN = 70, GAP = 20, LANE = 10;

// How many steps each is above the lowest below it; `ups` has the keys above each key.
export function ranks(ups) {
  const below = new Map(), rank = new Map();
  for (const [key, above] of ups) for (const up of above) below.set(up, [...(below.get(up) || []), key]);
  const of = (key) => {
    if (!rank.has(key)) {
      rank.set(key, 0);
      rank.set(key, Math.max(0, ...(below.get(key) || []).map((child) => of(child) + 1)));
    }
    return rank.get(key);
  };
  for (const key of ups.keys()) of(key);
  return rank;
}

// Lanes for the lines that pass by columns: each line gets a point in each column between its ends.
function lanes(lines, columns) {
  for (const line of lines) {
    line.lanes = [];
    for (let column = line.from.column + 1; column < line.to.column; column++) {
      const lane = { isLane: true, height: LANE, width: 0, weight: line.from.weight + 0.01 };
      line.lanes.push(lane);
      columns[column].push(lane);
    }
  }
}

// Gives each box its x and y; boxes have a key, a column, a weight (the smallest is uppermost), a width and a height.
export function arrange(boxes, lines) {
  const columns = [];
  for (const box of boxes) {
    while (columns.length <= box.column) columns.push([]);
    columns[box.column].push(box);
  }
  lanes(lines, columns);
  let x = 2, height = 0;
  for (const column of columns) {
    column.sort((a, b) => a.weight - b.weight);
    const width = Math.max(0, ...column.map((box) => box.width));
    let y = 2;
    for (const box of column) {
      Object.assign(box, { x, y, width });
      y += box.height + GAP;
    }
    x += width + BETWEEN;
    height = Math.max(height, y - GAP + 4);
  }
  return { width: Math.max(10, x - BETWEEN + 4), height };
}

const bow = (x1, y1, x2, y2) => {
  const bend = Math.max(24, (x2 - x1) / 2);
  return `C ${x1 + bend} ${y1}, ${x2 - bend} ${y2}, ${x2} ${y2}`;
};

// The path of a line from the right side of a box, by its lanes, to the left side of another.
export function pathOf({ from, to, lanes: passed }) {
  let x = from.x + from.width, y = from.y + Math.min(from.height / 2, 40), path = `M ${x} ${y} `;
  for (const lane of passed) {
    const middle = lane.y + lane.height / 2;
    path += `${bow(x, y, lane.x, middle)} L ${lane.x + lane.width} ${middle} `;
    x = lane.x + lane.width;
    y = middle;
  }
  return path + bow(x, y, to.x - 2, to.y + Math.min(to.height / 2, 22));
}
