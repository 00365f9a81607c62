// Right triangles with whole sides: the two short ones below 20.
var triangles = [];
for (var a = 1; a < 20; a++) {
  sides: for (var b = a; b < 20; b++) {
    for (var c = b; c < 30; c++) {
      if (c * c > a * a + b * b) continue sides;
      if (c * c === a * a + b * b) triangles[triangles.length] = a + '-' + b + '-' + c;
    }
  }
}

// Halve an even number, triple an odd one and add 1: how long until 27 is 1?
var turns = 0;
for (var m = 27; m !== 1; turns++) m = m % 2 ? 3 * m + 1 : m / 2;

// The value of a text is that of its last statement.
triangles + '; 27 takes ' + turns + ' turns';
