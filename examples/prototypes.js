// What a function makes has the members of the function's prototype.
function Shape(name) { this.name = name; }
Shape.prototype.area = function () { return 0; };
Shape.prototype.describe = function () { return this.name + ' ' + this.area(); };

function Square(side) { this.side = side; }
Square.prototype = new Shape('square');
Square.prototype.area = function () { return this.side * this.side; };

var shapes = [new Shape('point'), new Square(3), new Square(4)];
var text = '';
for (var i = 0; i < shapes.length; i++) text += shapes[i].describe() + ', ';

// `for in` visits an object's own keys first, and then those of its prototypes, each once.
var keys = '';
for (var key in shapes[1]) keys += ' ' + key;
text + (shapes[1] instanceof Shape) + ', keys' + keys;
