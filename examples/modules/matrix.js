// Matrices as arrays of rows: sums, products and powers. A matrix is frozen when it is made, and its rows too, so that it may be handed on.
function made(rows, columns, entry) {
  var matrix = [];
  for (var i = 0; i < rows; i++) {
    var row = [];
    for (var j = 0; j < columns; j++) {
      row.push(entry(i, j));
    }
    matrix.push(cajita.freeze(row));
  }
  return cajita.freeze(matrix);
}

function sum(a, b) {
  if (a.length !== b.length || a[0].length !== b[0].length) {
    throw new RangeError("no sum");
  }
  return made(a.length, a[0].length, function (i, j) { return a[i][j] + b[i][j]; });
}

function product(a, b) {
  if (a[0].length !== b.length) {
    throw new RangeError("no product of " + a[0].length + " columns and " + b.length + " rows");
  }
  return made(a.length, b[0].length, function (i, j) {
    var entry = 0;
    for (var k = 0; k < b.length; k++) {
      entry += a[i][k] * b[k][j];
    }
    return entry;
  });
}

function identity(size) {
  return made(size, size, function (i, j) { return i === j ? 1 : 0; });
}

function transposed(a) {
  return made(a[0].length, a.length, function (i, j) { return a[j][i]; });
}

// By squares: as many products as the exponent has binary digits, twice at most.
function power(a, n) {
  if (n === 0) {
    return identity(a.length);
  }
  var half = power(a, n >> 1), square = product(half, half);
  return n % 2 === 0 ? square : product(square, a);
}

function text(a) {
  var rows = [];
  for (var i = 0; i < a.length; i++) {
    rows.push(a[i].join(" "));
  }
  return rows.join(" / ");
}

var a = made(2, 3, function (i, j) { return 3 * i + j + 1; });
say("a is " + text(a));
say("transposed " + text(transposed(a)));
say("their product " + text(product(a, transposed(a))));
say("with the identity " + text(sum(product(a, transposed(a)), identity(2))));
try {
  product(a, a);
} catch (e) {
  say(e.message);
}
text(power(made(2, 2, function (i, j) { return i + j < 2 ? 1 : 0; }), 64));
