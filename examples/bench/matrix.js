// Matrices: the powers of a matrix of 10 rows, the entries kept below a prime.
// ./caja run --steps 10000000 < examples/bench/matrix.js
var SIZE = 10, PRIME = 10007;

function made(entry) {
  var m = [];
  for (var i = 0; i < SIZE; i++) {
    m[i] = [];
    for (var j = 0; j < SIZE; j++) {
      m[i][j] = entry(i, j);
    }
  }
  return m;
}

function product(a, b) {
  return made(function (i, j) {
    var sum = 0, row = a[i];
    for (var k = 0; k < SIZE; k++) {
      sum += row[k] * b[k][j];
    }
    return sum % PRIME;
  });
}

var m = made(function (i, j) { return 3 * i + 7 * j + 1 + i * j; }), power = m, trace = 0;
for (var n = 2; n <= 24; n++) {
  power = product(power, m);
}
for (var i = 0; i < SIZE; i++) trace += power[i][i];
"trace " + trace + ", corners " + power[0][0] + " " + power[9][9];
