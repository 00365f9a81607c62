// Exceptions, in Cajita: what ../exceptions.js does, where a refusal is a frozen record, as there are no constructors of one's own.
// ./caja solo < examples/bench/modules/exceptions.js
function refusal(reason) {
  return cajita.freeze({reason: reason});
}

function check(n) {
  if (n % 15 === 0) throw refusal("both");
  if (n % 5 === 0) throw "five";
  if (n % 3 === 0) throw new RangeError("three");
  if (n % 7 === 0) return undefined.length;
  return n;
}

function deep(n, levels) {
  return levels === 0 ? check(n) : deep(n, levels - 1);
}

var caught = {both: 0, five: 0, three: 0, "no object": 0}, good = 0, tries = 0;
for (var n = 1; n <= 5000; n++) {
  try {
    deep(n, 4);
    good++;
  } catch (e) {
    if (cajita.isRecord(e)) caught[e.reason]++;
    else if (e instanceof Error) caught[e.message]++;
    else caught[e]++;
  } finally {
    tries++;
  }
}
var lines = [];
for (var kind in caught) lines.push(kind + " " + caught[kind]);
lines.join(", ") + ", good " + good + " of " + tries;
