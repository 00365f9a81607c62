// Sums as people write them, turned into the order in which a stack does them, and done by it. Operators are records with a rank and a function,
// so that a new one is a new row.
var OPERATORS = cajita.freeze({
  "+": {rank: 1, toRight: false, run: function (a, b) { return a + b; }},
  "-": {rank: 1, toRight: false, run: function (a, b) { return a - b; }},
  "*": {rank: 2, toRight: false, run: function (a, b) { return a * b; }},
  "/": {rank: 2, toRight: false, run: function (a, b) {
    if (b === 0 || a % b !== 0) {
      throw new RangeError(a + " / " + b + " is no whole number");
    }
    return a / b;
  }},
  "^": {rank: 3, toRight: true, run: function (a, b) {
    for (var result = 1; b > 0; b--) {
      result *= a;
    }
    return result;
  }}
});

function last(list) {
  return list[list.length - 1];
}

// The parts of a sum: spaces part them, and parentheses and operators stand for themselves.
function parts(text) {
  var signs = ["(", ")", "+", "-", "*", "/", "^"], list = [];
  for (var i = 0; i < signs.length; i++) {
    text = text.split(signs[i]).join(" " + signs[i] + " ");
  }
  var pieces = text.split(" ");
  for (var j = 0; j < pieces.length; j++) {
    if (pieces[j] !== "") {
      list.push(pieces[j]);
    }
  }
  return list;
}

// The order of a stack: operators wait until one of a lower rank comes, or a parenthesis is closed.
function turned(list) {
  var output = [], waiting = [];
  for (var i = 0; i < list.length; i++) {
    var part = list[i];
    if (part in OPERATORS) {
      var operator = OPERATORS[part], top;
      while ((top = OPERATORS[last(waiting)]) && (top.rank > operator.rank || top.rank === operator.rank && !operator.toRight)) {
        output.push(waiting.pop());
      }
      waiting.push(part);
    } else if (part === "(") {
      waiting.push(part);
    } else if (part === ")") {
      while (waiting.length > 0 && last(waiting) !== "(") {
        output.push(waiting.pop());
      }
      if (waiting.pop() === undefined) {
        throw new Error("a parenthesis too many");
      }
    } else {
      output.push(Number(part));
    }
  }
  while (waiting.length > 0) {
    if (last(waiting) === "(") {
      throw new Error("an open parenthesis");
    }
    output.push(waiting.pop());
  }
  return output;
}

function worked(order) {
  var stack = [];
  for (var i = 0; i < order.length; i++) {
    var part = order[i];
    if (typeof part === "number") {
      stack.push(part);
      continue;
    }
    if (stack.length < 2) {
      throw new Error("a number is missing for " + part);
    }
    var b = stack.pop(), a = stack.pop();
    stack.push(OPERATORS[part].run(a, b));
  }
  return stack.length === 1 ? stack[0] : "no sum";
}

function told(text) {
  try {
    var order = turned(parts(text));
    return order.join(" ") + " = " + worked(order);
  } catch (e) {
    return e.message;
  }
}

var sums = ["3 + 4 * 2", "(3 + 4) * 2", "100 - 20 - 3", "2 ^ 3 ^ 2", "(1 + 2) * (3 + 4) / 7", "7 / 2", "1 + (2 * 3", "1 + 2)", "3 *", "1 2"];
for (var i = 0; i < sums.length; i++) {
  say(sums[i] + ": " + told(sums[i]));
}
worked(turned(parts("((15 / (7 - (1 + 1))) * 3) - (2 + (1 + 1))")));
