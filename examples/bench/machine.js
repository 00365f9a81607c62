// A machine: a program of numbers for a machine with a stack and four cells, which adds squares.
// ./caja run --steps 10000000 < examples/bench/machine.js
var PUSH = 0, LOAD = 1, STORE = 2, ADD = 3, MULTIPLY = 4, SUBTRACT = 5, JUMP_IF = 6, HALT = 7;
var code = [
  PUSH, 1500, STORE, 0,
  LOAD, 0, LOAD, 0, MULTIPLY, LOAD, 1, ADD, STORE, 1,
  LOAD, 0, PUSH, 1, SUBTRACT, STORE, 0,
  LOAD, 0, JUMP_IF, 4,
  HALT
];

function run(code) {
  var stack = [], cells = [0, 0, 0, 0], top = 0, at = 0, turns = 0;
  while (true) {
    turns++;
    switch (code[at++]) {
      case PUSH: stack[top++] = code[at++]; break;
      case LOAD: stack[top++] = cells[code[at++]]; break;
      case STORE: cells[code[at++]] = stack[--top]; break;
      case ADD: top--; stack[top - 1] += stack[top]; break;
      case MULTIPLY: top--; stack[top - 1] *= stack[top]; break;
      case SUBTRACT: top--; stack[top - 1] -= stack[top]; break;
      case JUMP_IF: at = stack[--top] !== 0 ? code[at] : at + 1; break;
      case HALT: return cells[1] + " in " + turns + " turns";
      default: throw new Error("no such instruction: " + code[at - 1]);
    }
  }
}

run(code);
