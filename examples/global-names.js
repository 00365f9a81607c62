function keys(o) {
  var found = [];
  for (var key in o) found[found.length] = key;
  return found.join(" ");
}
var lost = delete Array, kept = delete undefined;
Boolean = 7;
Object.prototype = 1;
[keys(this), keys(Math), keys([1]), keys(String), keys(String.prototype), lost, kept, Boolean, typeof Object.prototype].join("; ");
