// Exceptions: values that are thrown through calls, caught by their kind, and counted in finally.
// ./caja run --steps 10000000 < examples/bench/exceptions.js
function Refusal(reason) {
  this.reason = reason;
}

function check(n) {
  if (n % 15 === 0) throw new Refusal("both");
  if (n % 5 === 0) throw "five";
  if (n % 3 === 0) throw new RangeError("three");
  if (n % 7 === 0) return undefined.length;
  return n;
}

function deep(n, levels) {
  return levels === 0 ? check(n) : deep(n, levels - 1);
}

var caught = {both: 0, five: 0, three: 0, "no object": 0}, good = 0, tries = 0;
for (var n = 1; n <= 5000; n++) {
  try {
    deep(n, 4);
    good++;
  } catch (e) {
    if (e instanceof Refusal) caught[e.reason]++;
    else if (e instanceof Error) caught[e.message]++;
    else caught[e]++;
  } finally {
    tries++;
  }
}
var lines = [];
for (var kind in caught) lines.push(kind + " " + caught[kind]);
lines.join(", ") + ", good " + good + " of " + tries;
