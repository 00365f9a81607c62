var o = {};
function Point() {}
[
  new Object() instanceof Object, Object(null) === o, Object(o) === o, new Object(o) === o,
  Array().length, Array(3, 4).join("-"), new Array("3").length, new Array([]).length,
  o.constructor === Object, [].constructor === Array, Point.constructor === Function, "".constructor === String,
  Array.prototype.constructor === Array, new Point().constructor === Point
].join(" ");
