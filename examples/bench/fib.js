// Recursion: the 21st number of Fibonacci, and how many calls it takes.
// ./caja run --steps 10000000 < examples/bench/fib.js
var calls = 0;

function fib(n) {
  calls++;
  return n < 2 ? n : fib(n - 1) + fib(n - 2);
}

fib(21) + " by " + calls + " calls";
