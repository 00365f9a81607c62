function Shape(name) { this.name = name; }
Shape.prototype.area = function () { return 0; };
Shape.prototype.toText = function () { return this.name + ' ' + this.area(); };
function Box(w, h) { Shape.call(this, 'box'); this.w = w; this.h = h; }
Box.prototype = new Shape();
Box.prototype.area = function () { return this.w * this.h; };
function Cube(s) { Box.call(this, s, s); this.name = 'cube'; }
Cube.prototype = new Box(0, 0);
Cube.prototype.area = function () { return 6 * Box.prototype.area.call(this); };
var all = [new Shape('dot'), new Box(3, 4), new Cube(2)];
for (var i = 0; i < all.length; i++) { say(all[i].toText()); }
