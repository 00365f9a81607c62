// Loops: the number up to 400 whose way by halving and tripling is the longest.
// ./caja run --steps 10000000 < examples/bench/loops.js
function wayFrom(n) {
  var length = 1;
  while (n !== 1) {
    n = n % 2 === 0 ? n / 2 : 3 * n + 1;
    length++;
  }
  return length;
}

function longest(limit) {
  var best = 1, record = 1, length;
  for (var n = 1; n <= limit; n++) {
    length = wayFrom(n);
    if (length > record) {
      record = length;
      best = n;
    }
  }
  return best + " takes " + record;
}

longest(400);
