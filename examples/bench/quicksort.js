// Sorting: quicksort in place, of arrays of numbers drawn at random.
// ./caja run --steps 10000000 < examples/bench/quicksort.js
var seed = 42;

function random() {
  seed = seed * 16807 % 2147483647;
  return seed % 1000;
}

function sort(a, low, high) {
  var i = low, j = high, pivot = a[(low + high) >> 1], kept;
  while (i <= j) {
    while (a[i] < pivot) i++;
    while (a[j] > pivot) j--;
    if (i <= j) {
      kept = a[i];
      a[i++] = a[j];
      a[j--] = kept;
    }
  }
  if (low < j) sort(a, low, j);
  if (i < high) sort(a, i, high);
}

var first = 0, middle = 0, last = 0;
for (var turn = 0; turn < 36; turn++) {
  var a = [];
  for (var n = 0; n < 60; n++) a[n] = random();
  sort(a, 0, 59);
  for (var k = 1; k < 60; k++) {
    if (a[k - 1] > a[k]) throw new Error("not sorted at " + k);
  }
  first += a[0];
  middle += a[30];
  last += a[59];
}
first + " " + middle + " " + last;
