function Item(name, price) { this.name = name; this.price = price; }
Item.count = 0;
Item.prototype.priceOf = function (n) { return this.price * n; };
function Cart() { this.lines = {}; }
Cart.prototype.put = function (item, n) {
  if (item.name in this.lines) { this.lines[item.name].n += n; }
  else { this.lines[item.name] = {item: item, n: n}; Item.count++; }
  return this;
};
Cart.prototype.sum = function () {
  var total = 0;
  for (var name in this.lines) { total += this.lines[name].item.priceOf(this.lines[name].n); }
  return total;
};
var tea = new Item('tea', 4), jam = new Item('jam', 3);
var cart = new Cart().put(tea, 2).put(jam, 1).put(tea, 1);
say(Item.count + ' kinds');
delete cart.lines.jam;
cart.sum();
