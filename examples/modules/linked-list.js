// Linked lists of frozen records, which share their tails: what is put before a list leaves the list as it is. The empty list is null.
function pair(first, rest) {
  return cajita.freeze({first: first, rest: rest});
}

function list() {
  var result = null;
  for (var i = arguments.length - 1; i >= 0; i--) {
    result = pair(arguments[i], result);
  }
  return result;
}

function length(items) {
  var count = 0;
  for (; items !== null; items = items.rest) {
    count++;
  }
  return count;
}

function reversed(items) {
  var result = null;
  for (; items !== null; items = items.rest) {
    result = pair(items.first, result);
  }
  return result;
}

function appended(a, b) {
  return a === null ? b : pair(a.first, appended(a.rest, b));
}

// The merge of two lists that are in order; of items that are alike that of the first list comes first.
function merged(a, b) {
  if (a === null) {
    return b;
  }
  if (b === null) {
    return a;
  }
  return b.first < a.first ? pair(b.first, merged(a, b.rest)) : pair(a.first, merged(a.rest, b));
}

// Every other item, from the first or from the second one.
function everyOther(items) {
  return items === null ? null : pair(items.first, items.rest === null ? null : everyOther(items.rest.rest));
}

function sorted(items) {
  if (items === null || items.rest === null) {
    return items;
  }
  return merged(sorted(everyOther(items)), sorted(everyOther(items.rest)));
}

function text(items) {
  var texts = [];
  for (; items !== null; items = items.rest) {
    texts.push(items.first);
  }
  return "(" + texts.join(" ") + ")";
}

var tail = list(3, 4), a = pair(1, pair(2, tail)), b = pair(0, tail);
say(text(a) + " and " + text(b) + " share a tail: " + (a.rest.rest === b.rest));
say(text(reversed(a)) + ", " + text(appended(a, b)) + " of " + length(appended(a, b)));
say(text(sorted(list(31, 4, 15, 9, 26, 5, 35, 8, 9))));
try {
  tail.first = 5;
} catch (e) {
  say(e.message);
}
text(a);
