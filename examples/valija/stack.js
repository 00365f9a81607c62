function Stack() { this.items = []; }
Stack.of = function () {
  var s = new Stack();
  for (var i = 0; i < arguments.length; i++) { s.push(arguments[i]); }
  return s;
};
Stack.prototype.push = function (x) { this.items.push(x); return this; };
Stack.prototype.pop = function () {
  if (this.items.length === 0) { throw new RangeError('empty'); }
  return this.items.pop();
};
Stack.prototype.each = function (f) {
  for (var i = this.items.length - 1; i >= 0; i--) { f.call(this, this.items[i]); }
};
var s = Stack.of('a', 'b', 'c');
s.push('d').each(function (x) { say(x + ' of ' + this.items.length); });
while (true) {
  try { s.pop(); } catch (e) { say(e.name + ': ' + e.message); break; }
}
