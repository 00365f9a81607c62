// Arrays: the sieve of Eratosthenes, over one array again and again.
// ./caja run --steps 10000000 < examples/bench/sieve.js
function sieve(crossed, limit) {
  var count = 0, i, multiple;
  for (i = 2; i <= limit; i++) {
    crossed[i] = false;
  }
  for (i = 2; i <= limit; i++) {
    if (!crossed[i]) {
      count++;
      for (multiple = i * i; multiple <= limit; multiple += i) {
        crossed[multiple] = true;
      }
    }
  }
  return count;
}

var crossed = [false, false], counts = [];
for (var turn = 0; turn < 60; turn++) {
  counts[turn % 10] = sieve(crossed, 100 + 10 * (turn % 10));
}
counts.join(" ");
