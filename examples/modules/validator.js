// A validator of what was filled into a form. A check is a function from a text to what is wrong with it, or the empty text; checks are put
// together to larger ones.
function isDigit(unit) {
  return unit !== "" && "0123456789".indexOf(unit) >= 0;
}

function isLetter(unit) {
  return unit !== "" && "abcdefghijklmnopqrstuvwxyz".indexOf(unit) >= 0;
}

// A check that wants the same of each unit.
function each(test, message) {
  return function (text) {
    for (var i = 0; i < text.length; i++) {
      if (!test(text.charAt(i))) {
        return message + ", not " + text.charAt(i);
      }
    }
    return "";
  };
}

function length(least, most) {
  return function (text) {
    return text.length < least ? "at least " + least + " units" : text.length > most ? "at most " + most + " units" : "";
  };
}

function between(least, most) {
  return function (text) {
    var number = Number(text);
    return number < least || number > most ? "from " + least + " to " + most : "";
  };
}

// All of the checks, in order, up to the first that finds something.
function all() {
  var checks = arguments;
  return function (text) {
    for (var i = 0; i < checks.length; i++) {
      var wrong = checks[i](text);
      if (wrong !== "") {
        return wrong;
      }
    }
    return "";
  };
}

function optional(check) {
  return function (text) { return text === "" ? "" : check(text); };
}

// Exactly one @, with something before it, and a point in what stands behind it.
function isAddress(text) {
  var parts = text.split("@");
  if (parts.length !== 2 || parts[0] === "") {
    return "no address";
  }
  var point = parts[1].lastIndexOf(".");
  return point > 0 && point < parts[1].length - 1 ? "" : "no place behind the @";
}

var rules = cajita.freeze({
  name: all(length(2, 12), each(isLetter, "small letters")),
  age: all(length(1, 3), each(isDigit, "digits"), between(18, 120)),
  mail: isAddress,
  post: optional(all(each(isDigit, "digits"), length(5, 5)))
});

function faults(form) {
  var found = [];
  for (var field in rules) {
    var wrong = rules[field](form[field] || "");
    if (wrong !== "") {
      found.push(field + ": " + wrong);
    }
  }
  for (var other in form) {
    if (!(other in rules)) {
      found.push(other + ": not asked for");
    }
  }
  return found.length === 0 ? "good" : found.join("; ");
}

say(faults({name: "miller", age: "42", mail: "miller@example.org"}));
say(faults({name: "x", age: "4x", mail: "@example.org", post: "123"}));
say(faults({name: "Laurie", age: "7", mail: "laurie@place", post: "12345"}));
faults({age: "130", shoe: "44"});
