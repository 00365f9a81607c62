// A till: prices are whole numbers of cents, goods are rung up by their names, and change is given in as few coins as the till has for it.
var PRICES = cajita.freeze({apple: 45, bread: 320, cheese: 1275, milk: 119});

function money(cents) {
  var sign = cents < 0 ? "-" : "", all = Math.abs(cents), rest = all % 100;
  return sign + (all - rest) / 100 + "." + (rest < 10 ? "0" : "") + rest;
}

// A part of an amount in hundredths, rounded to the nearest cent.
function percent(cents, rate) {
  var product = cents * rate + 50;
  return (product - product % 100) / 100;
}

function newTill(coins) {
  var drawer = cajita.copy(coins), takings = 0;

  // The coins that make up an amount, the largest first, taken from the drawer; or an error, and the drawer is as it was.
  function change(amount) {
    var given = [], before = cajita.copy(drawer), values = [1000, 500, 200, 100, 50, 20, 10, 5, 2, 1];
    for (var i = 0; i < values.length; i++) {
      while (amount >= values[i] && drawer[values[i]] > 0) {
        amount -= values[i];
        drawer[values[i]]--;
        given.push(money(values[i]));
      }
    }
    if (amount > 0) {
      drawer = before;
      throw new RangeError("no coins for " + money(amount));
    }
    return given;
  }

  function sell(goods, paid) {
    var total = 0, lines = [];
    for (var name in goods) {
      if (!(name in PRICES)) {
        throw new TypeError("no price for " + name);
      }
      var price = goods[name] * PRICES[name];
      total += price;
      lines.push(goods[name] + " " + name + " " + money(price));
    }
    if (paid < total) {
      throw new RangeError(money(total - paid) + " are missing");
    }
    var coins = change(paid - total);
    takings += total;
    lines.push("together " + money(total) + ", of which tax " + money(percent(total, 7)));
    lines.push(coins.length === 0 ? "no change" : "change " + coins.join(" "));
    return lines;
  }

  return cajita.freeze({
    sell: sell,
    takings: function () { return takings; }
  });
}

var till = newTill({1000: 1, 500: 2, 200: 2, 100: 3, 50: 1, 20: 4, 10: 0, 5: 2, 2: 3, 1: 2});
var sales = [
  [{apple: 3, bread: 1}, 1000], [{cheese: 1, milk: 2}, 2000], [{apple: 1}, 45], [{milk: 1}, 100], [{caviar: 1}, 100000], [{apple: 2}, 10000]
];
for (var i = 0; i < sales.length; i++) {
  try {
    var lines = till.sell(sales[i][0], sales[i][1]);
    for (var j = 0; j < lines.length; j++) {
      say(lines[j]);
    }
  } catch (e) {
    say(e.name + ": " + e.message);
  }
}
"taken " + money(till.takings());
