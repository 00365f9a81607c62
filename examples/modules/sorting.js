// Sorting by insertion, by any order that a function tells. Items that are alike stay in the order in which they came, so that one can sort by
// one thing and then by another.
function sorted(items, comesBefore) {
  var result = [];
  for (var i = 0; i < items.length; i++) {
    var item = items[i], place = result.length;
    result.push(item);
    while (place > 0 && comesBefore(item, result[place - 1])) {
      result[place] = result[place - 1];
      place--;
    }
    result[place] = item;
  }
  return result;
}

// An order by one key of records, and the same order backwards.
function by(key) {
  return function (a, b) { return a[key] < b[key]; };
}

function backwards(comesBefore) {
  return function (a, b) { return comesBefore(b, a); };
}

function names(people) {
  var list = [];
  for (var i = 0; i < people.length; i++) {
    list.push(people[i].name + " " + people[i].age);
  }
  return list.join(", ");
}

// The array is frozen: sorting makes a new one.
var people = cajita.freeze([
  {name: "dora", age: 41}, {name: "anton", age: 29}, {name: "clara", age: 41},
  {name: "bert", age: 35}, {name: "emil", age: 29}
]);

say("by name: " + names(sorted(people, by("name"))));
say("by age: " + names(sorted(people, by("age"))));
say("the eldest first: " + names(sorted(people, backwards(by("age")))));
say("by age, then by name: " + names(sorted(sorted(people, by("name")), by("age"))));
say("as they were: " + names(people));

var numbers = [170, 45, 75, -90, 802, 24, 2, 66];
sorted(numbers, function (a, b) { return a < b; }).join(" ");
