function Subject() { this.observers = []; }
Subject.prototype.watch = function (f, who) { this.observers.push({f: f, who: who}); };
Subject.prototype.tell = function (what) {
  for (var i = 0; i < this.observers.length; i++) {
    var o = this.observers[i];
    o.f.call(o.who, what);
  }
};
function Price(start) { Subject.call(this); this.now = start; }
Price.prototype = new Subject();
Price.prototype.set = function (n) {
  var old = this.now;
  this.now = n;
  this.tell({from: old, to: n});
};
function Board(name) { this.name = name; this.seen = 0; }
Board.prototype.show = function (c) { this.seen++; say(this.name + ' ' + c.from + ' to ' + c.to); };
var price = new Price(10), left = new Board('left'), right = new Board('right');
price.watch(left.show, left);
price.watch(right.show, right);
price.set(12);
price.set(9);
left.seen + right.seen;
