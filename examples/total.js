function total() {
  var sum = 0;
  for (var i = 0; i < arguments.length; i++) sum += arguments[i];
  return sum;
}
[total(), total(1, 2), total.apply(null, [1, 2, 3]), total.call(null, 4)].join(" ");
