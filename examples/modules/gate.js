// A state machine: a gate that is opened by coins. The table says for each state what each input does; what stands in no row changes nothing.
var table = cajita.freeze({
  locked: cajita.freeze({coin: "open", kick: "alarm"}),
  open: cajita.freeze({push: "locked", coin: "open", kick: "open"}),
  alarm: cajita.freeze({key: "locked"})
});

// What is done when a state is entered, beside what the table says.
function newMachine(table, start, entered) {
  var state = start, steps = 0;

  function step(input) {
    var next = table[state][input];
    if (next === undefined) {
      return false;
    }
    steps += 1;
    if (next !== state && next in entered) {
      entered[next](state, input);
    }
    state = next;
    return true;
  }

  return {
    step: step,
    state: function () { return state; },
    steps: function () { return steps; }
  };
}

// Which states can be reached from the first one, in the order in which they are found.
function reached(table, start) {
  var found = [start];
  for (var i = 0; i < found.length; i++) {
    var row = table[found[i]];
    for (var input in row) {
      var isNew = true;
      for (var j = 0; j < found.length; j++) {
        if (found[j] === row[input]) {
          isNew = false;
          break;
        }
      }
      if (isNew) {
        found.push(row[input]);
      }
    }
  }
  return found;
}

var coins = 0, passed = 0;
var gate = newMachine(table, "locked", {
  open: function (from, input) {
    coins += 1;
    say("opened by a " + input);
  },
  locked: function (from) {
    if (from === "open") {
      passed += 1;
    }
    say("locked, it was " + from);
  },
  alarm: function () { say("alarm"); }
});

var inputs = "push coin coin push push kick coin key coin push".split(" "), ignored = [];
for (var i = 0; i < inputs.length; i++) {
  if (!gate.step(inputs[i])) {
    ignored.push(inputs[i]);
  }
}
say("ignored: " + ignored.join(" "));
say("states: " + reached(table, "locked").join(" "));
gate.state() + " after " + gate.steps() + " steps, " + passed + " passed";
