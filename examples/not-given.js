function thrown(f) {
  try { return f() + ""; } catch (e) { return e.name + " " + e.message; }
}
var closed = [1], one = {};
closed.FROZEN___ = true;
[
  thrown(function () { return [].join.call(one); }), thrown(function () { return "".charAt.call(5); }),
  thrown(function () { return thrown.call.call(one); }), thrown(function () { return closed.push(2); }),
  thrown(function () { return thrown.apply(one, one); }), thrown(function () { return Array(3); }),
  thrown(function () { return Object(3); }), thrown(function () { return Function("return 1;"); }),
  thrown(function () { return new String("a"); }), thrown(function () { return new Math.abs(1); })
].join("; ");
