var a = [3, 4], hole = [];
hole[2] = "c";
[
  a.push(5, 6), a.unshift(1, 2), a.pop(), a.shift(), a.join("-"), a.reverse().join("-"), a.join(),
  a.slice(1).join("-"), a.slice(-3, -1).join("-"), a.concat(1, [0, [7]]).length, [].pop(), [].shift(),
  hole.join("-"), 1 in hole, hole.push(), 1 in hole
].join("; ");
