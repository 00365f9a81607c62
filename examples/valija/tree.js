function Node(key) { this.key = key; }
Node.prototype.put = function (key) {
  var side = key < this.key ? 'left' : 'right';
  if (side in this) { this[side].put(key); } else { this[side] = new Node(key); }
};
Node.prototype.walk = function (f) {
  if (this.left) { this.left.walk(f); }
  f(this.key);
  if (this.right) { this.right.walk(f); }
};
var root = new Node(5), keys = [2, 8, 1, 9, 3], out = [];
for (var i in keys) { root.put(keys[i]); }
root.walk(function (k) { out.push(k); });
out.join(' ');
