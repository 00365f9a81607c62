// Functions of functions: a function that takes its arguments one by one, functions in a row, and lists that are worked on by them.
function curried(f, count) {
  function taking(taken) {
    return function () {
      var all = taken.concat(arguments);
      return all.length >= count ? f.apply(undefined, all) : taking(all);
    };
  }
  return taking([]);
}

// The functions one behind the other, from the left.
function row() {
  var functions = arguments;
  return function (value) {
    for (var i = 0; i < functions.length; i++) {
      value = functions[i](value);
    }
    return value;
  };
}

function flipped(f) {
  return function (a, b) { return f(b, a); };
}

var map = curried(function (f, list) {
  var result = [];
  for (var i = 0; i < list.length; i++) {
    result.push(f(list[i]));
  }
  return result;
}, 2);

var only = curried(function (test, list) {
  var result = [];
  for (var i = 0; i < list.length; i++) {
    if (test(list[i])) {
      result.push(list[i]);
    }
  }
  return result;
}, 2);

var fold = curried(function (f, start, list) {
  for (var i = 0; i < list.length; i++) {
    start = f(start, list[i]);
  }
  return start;
}, 3);

function upTo(n) {
  var list = [];
  while (list.length < n) {
    list.push(list.length + 1);
  }
  return list;
}

var add = curried(function (a, b) { return a + b; }, 2), times = curried(function (a, b) { return a * b; }, 2);
var sum = fold(add)(0), product = fold(times, 1);
var isDivisible = curried(function (by, n) { return n % by === 0; }, 2);

var worked = row(only(isDivisible(3)), map(times(10)), map(add(1)), fold(flipped(add), ""));
say(add(1)(2) + " " + add(1, 2));
say(sum(upTo(100)) + " " + product(upTo(10)));
say(map(row(add(1), times(2)), upTo(5)).join(" "));
worked(upTo(12));
