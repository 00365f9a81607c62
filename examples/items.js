var cart = {apples: 3}, list = [1, 2];
cart.apples += list[1];
list[2] = cart.apples++;
delete cart.pears;
"apples" in cart && list + ": " + Math.none;
