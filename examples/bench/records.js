// Records: accounts that pay one another, each from what it has.
// ./caja run --steps 10000000 < examples/bench/records.js
var seed = 1;

function random(limit) {
  seed = seed * 16807 % 2147483647;
  return seed % limit;
}

function pay(from, to, amount) {
  if (from.balance < amount) {
    from.refused += 1;
    return;
  }
  from.balance -= amount;
  to.balance += amount;
  to.received += 1;
}

var accounts = {
  anna: {balance: 500, received: 0, refused: 0},
  bruno: {balance: 300, received: 0, refused: 0},
  clara: {balance: 200, received: 0, refused: 0},
  david: {balance: 0, received: 0, refused: 0}
};
var names = ["anna", "bruno", "clara", "david"];
for (var n = 0; n < 7000; n++) {
  pay(accounts[names[random(4)]], accounts[names[random(4)]], random(100));
}
var report = [], total = 0;
for (var name in accounts) {
  var a = accounts[name];
  total += a.balance;
  report[report.length] = name + " " + a.balance + "/" + a.received + "/" + a.refused;
}
report.join(", ") + ", together " + total;
