// A table of answers: a function that is asked for the same thing twice looks the answer up. The table is a record whose keys are the texts of
// the arguments.
function remembering(f) {
  var table = {}, asked = 0, found = 0;

  function answer() {
    var key = arguments.join(" ");
    asked += 1;
    if (key in table) {
      found += 1;
    } else {
      table[key] = f.apply(undefined, arguments);
    }
    return table[key];
  }

  return {
    ask: answer,
    told: function () { return found + " of " + asked + " were known"; }
  };
}

// The number of Fibonacci, which asks for two smaller ones.
var fibonacci = remembering(function (n) {
  return n < 2 ? n : fibonacci.ask(n - 1) + fibonacci.ask(n - 2);
});

// In how many ways a grid can be walked from one corner to the other, to the right and down.
var ways = remembering(function (rows, columns) {
  if (rows === 1 || columns === 1) {
    return 1;
  }
  return ways.ask(rows - 1, columns) + ways.ask(rows, columns - 1);
});

// The longest text that two texts share, with units left out.
var shared = remembering(function (a, b) {
  if (a === "" || b === "") {
    return "";
  }
  if (a.charAt(0) === b.charAt(0)) {
    return a.charAt(0) + shared.ask(a.slice(1), b.slice(1));
  }
  var left = shared.ask(a.slice(1), b), right = shared.ask(a, b.slice(1));
  return left.length >= right.length ? left : right;
});

say("fibonacci of 70 is " + fibonacci.ask(70) + "; " + fibonacci.told());
say("a grid of 16 by 16 is walked in " + ways.ask(16, 16) + " ways; " + ways.told());
shared.ask("capability", "availability") + "; " + shared.told();
