// A counter for a page: it counts up and down between two bounds, remembers what it was, and tells whoever wants to know.
// What the counter keeps stands in variables that only its own functions see.
function newCounter(least, greatest) {
  var value = least, history = [], watchers = [];

  function change(by) {
    var next = Math.min(greatest, Math.max(least, value + by));
    if (next === value) {
      return value;
    }
    history.push(value);
    value = next;
    for (var i = 0; i < watchers.length; i++) {
      watchers[i](value);
    }
    return value;
  }

  // What is handed out is frozen, so that nobody can put another function in the place of one of these.
  return cajita.freeze({
    up: function () { return change(1); },
    down: function () { return change(-1); },
    by: change,
    value: function () { return value; },
    watch: function (f) { watchers.push(f); },
    undo: function () {
      if (history.length > 0) {
        value = history.pop();
      }
      return value;
    }
  });
}

var counter = newCounter(0, 5), other = newCounter(10, 20), seen = [];
counter.watch(function (value) { say("now " + value); });
counter.watch(function (value) { seen.push(value); });
counter.up();
counter.up();
counter.by(7);
counter.up();
counter.down();
counter.undo();
other.up();

var refused;
try {
  counter.up = function () { return 1000; };
} catch (e) {
  refused = e.message;
}
"counter " + counter.value() + ", other " + other.value() + ", seen " + seen.join(" ") + ", " + refused;
