// An emitter of events: listeners are put under the name of an event, are called in order, and can be taken away again by the function that
// putting them gave.
function newEmitter() {
  var listeners = {};

  function on(name, listener) {
    var list = listeners[name];
    if (list === undefined) {
      list = listeners[name] = [];
    }
    var entry = {hear: listener};
    list.push(entry);
    return function () {
      // The others are kept in a new array, so that an event that is being told goes on over the old one.
      var left = [];
      for (var i = 0; i < listeners[name].length; i++) {
        if (listeners[name][i] !== entry) {
          left.push(listeners[name][i]);
        }
      }
      listeners[name] = left;
    };
  }

  function once(name, listener) {
    var remove = on(name, function (value) {
      remove();
      listener(value);
    });
    return remove;
  }

  // A listener that throws doesn't keep the event from those behind it.
  function emit(name, value) {
    var list = listeners[name] || [], failed = 0;
    for (var i = 0; i < list.length; i++) {
      try {
        list[i].hear(value);
      } catch (e) {
        failed += 1;
      }
    }
    return list.length + " called, " + failed + " failed";
  }

  return cajita.freeze({on: on, once: once, emit: emit});
}

var emitter = newEmitter(), total = 0, log = [];
emitter.on("order", function (order) { total += order.price; });
emitter.on("order", function (order) { log.push("order of " + order.what); });
emitter.once("order", function () { log.push("the first order"); });
emitter.on("order", function (order) {
  if (order.price > 10) {
    throw new Error("too dear");
  }
});
var silence = emitter.on("closing", function (hour) { log.push("closing at " + hour); });

say(emitter.emit("order", {what: "tea", price: 4}));
say(emitter.emit("order", {what: "a cake", price: 12}));
say(emitter.emit("closing", 18));
silence();
say(emitter.emit("closing", 19));
say(emitter.emit("nothing"));
log.join(", ") + ", " + total + " in all";
