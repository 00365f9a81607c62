function Account(owner) { this.owner = owner; this.sum = 0; }
Account.prototype.pay = function (n) { this.sum += n; return this; };
Account.prototype.told = function () { return this.owner + ': ' + this.sum; };
function Savings(owner, rate) { Account.call(this, owner); this.rate = rate; }
Savings.prototype = new Account('');
Savings.prototype.year = function () { return this.pay(this.sum * this.rate); };
var mine = new Savings('me', 2), yours = new Account('you');
say(mine.pay(4).year().told());
say(yours.pay(1).told());
mine instanceof Account && !(yours instanceof Savings);
