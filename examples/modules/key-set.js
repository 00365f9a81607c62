// Sets of texts, kept as the keys of a record. A set never changes: what is added to one or taken from it is a new set.
function newSet(keys) {
  function has(text) {
    return text in keys;
  }

  function list() {
    return cajita.keys(keys);
  }

  // The texts of this set for which a test holds.
  function only(test) {
    var kept = {};
    for (var text in keys) {
      if (test(text)) {
        kept[text] = true;
      }
    }
    return newSet(kept);
  }

  return cajita.freeze({
    has: has,
    list: list,
    only: only,
    size: function () { return list().length; },
    joined: function (other) {
      var all = cajita.copy(keys), more = other.list();
      for (var i = 0; i < more.length; i++) {
        all[more[i]] = true;
      }
      return newSet(all);
    },
    shared: function (other) { return only(other.has); },
    without: function (other) {
      return only(function (text) { return !other.has(text); });
    },
    isWithin: function (other) {
      for (var text in keys) {
        if (!other.has(text)) {
          return false;
        }
      }
      return true;
    }
  });
}

function setOf() {
  var keys = {};
  for (var i = 0; i < arguments.length; i++) {
    keys[arguments[i]] = true;
  }
  return newSet(keys);
}

var birds = setOf("owl", "hen", "kiwi", "emu"), cannotFly = setOf("emu", "kiwi", "cat"), none = setOf();
say("joined: " + birds.joined(cannotFly).list());
say("shared: " + birds.shared(cannotFly).list());
say("without: " + birds.without(cannotFly).list());
say("sizes: " + [birds.size(), cannotFly.size(), none.size()]);
say("within: " + [none.isWithin(birds), birds.isWithin(cannotFly), setOf("hen").isWithin(birds)]);

// Names that mean something elsewhere are texts like others, but for those that the runtime keeps for itself.
var names = setOf("constructor", "length", "prototype"), refused;
try {
  setOf("toString");
} catch (e) {
  refused = e.message;
}
names.has("length") + " " + names.has("valueOf") + " " + refused;
