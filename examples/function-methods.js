function told(a, b) { return this.name + " " + a + " " + b; }
var one = {name: "one"};
[
  told.call(one, 1, 2), told.call(one), told.apply(one, [3, 4]), told.apply(one), told.apply(one, null),
  "".slice.call("how now", 4), [].join.apply([1, 2], ["-"])
].join("; ");
