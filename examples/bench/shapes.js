// Prototypes: shapes that inherit from one another, and calls of what each has of its own.
// ./caja run --steps 10000000 < examples/bench/shapes.js
function Shape(name) {
  this.name = name;
}
Shape.prototype.area = function () { return 0; };
Shape.prototype.isLarge = function () { return this.area() > 50; };
Shape.prototype.toText = function () { return this.name + " " + this.area(); };

function Box(width, height) {
  Shape.call(this, "box");
  this.width = width;
  this.height = height;
}
Box.prototype = new Shape("");
Box.prototype.area = function () { return this.width * this.height; };

function Square(side) {
  Box.call(this, side, side);
  this.name = "square";
}
Square.prototype = new Box(0, 0);
Square.prototype.toText = function () { return "a " + Box.prototype.toText.call(this); };

var shapes = [new Shape("point"), new Box(3, 4), new Square(5), new Box(9, 8), new Square(11)];
var large = 0, area = 0, length = 0;
for (var turn = 0; turn < 1600; turn++) {
  for (var i = 0; i < shapes.length; i++) {
    if (shapes[i].isLarge()) large++;
    area += shapes[i].area();
  }
  length += shapes[turn % 5].toText().length;
}
shapes[2].toText() + ", " + large + " large, area " + area + ", length " + length;
