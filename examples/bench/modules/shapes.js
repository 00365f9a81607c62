// Shapes, in Cajita: what ../shapes.js does by prototypes, where each shape is a record of closures, and one that goes on from another changes
// what it is given.
// ./caja solo < examples/bench/modules/shapes.js
function newShape(name) {
  var self = {};
  self.area = function () { return 0; };
  self.isLarge = function () { return self.area() > 50; };
  self.text = function () { return name + " " + self.area(); };
  return self;
}

function newBox(width, height, name) {
  var self = newShape(name || "box");
  self.area = function () { return width * height; };
  return self;
}

function newSquare(side) {
  var self = newBox(side, side, "square"), textOfBox = self.text;
  self.text = function () { return "a " + textOfBox(); };
  return self;
}

var shapes = [newShape("point"), newBox(3, 4), newSquare(5), newBox(9, 8), newSquare(11)];
var large = 0, area = 0, length = 0;
for (var turn = 0; turn < 1600; turn++) {
  for (var i = 0; i < shapes.length; i++) {
    if (shapes[i].isLarge()) large++;
    area += shapes[i].area();
  }
  length += shapes[turn % 5].text().length;
}
shapes[2].text() + ", " + large + " large, area " + area + ", length " + length;
