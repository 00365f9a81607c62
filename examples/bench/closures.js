// Closures: counters with a state of their own, and functions composed of others.
// ./caja run --steps 10000000 < examples/bench/closures.js
function counter(step) {
  var value = 0;
  return function () {
    value += step;
    return value;
  };
}

function compose(f, g) {
  return function (x) {
    return f(g(x));
  };
}

function adder(n) {
  return function (x) {
    return x + n;
  };
}

var byThree = counter(3), byFive = counter(5);
var change = adder(0), total = 0;
for (var i = 1; i <= 12; i++) {
  change = compose(change, adder(i));
}
for (var turn = 0; turn < 3000; turn++) {
  total += change(byThree()) % 7 + byFive() % 4;
}
total + " " + byThree() + " " + byFive();
