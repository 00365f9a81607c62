// Conway's game of life on a board whose edges meet. A board is an array of rows of texts, so that two boards are alike where their texts are.
function next(board) {
  var height = board.length, width = board[0].length, result = [];

  function lives(row, column) {
    return board[(row + height) % height].charAt((column + width) % width) === "#";
  }

  function around(row, column) {
    var count = 0;
    for (var down = -1; down <= 1; down++) {
      for (var right = -1; right <= 1; right++) {
        if ((down !== 0 || right !== 0) && lives(row + down, column + right)) {
          count++;
        }
      }
    }
    return count;
  }

  for (var row = 0; row < height; row++) {
    var line = "";
    for (var column = 0; column < width; column++) {
      var count = around(row, column);
      line += count === 3 || count === 2 && lives(row, column) ? "#" : ".";
    }
    result.push(line);
  }
  return result;
}

// After how many turns a board comes again, and where it was first; boards that were seen stand as keys in a record.
function period(board, most) {
  var seen = {};
  for (var turn = 0; turn <= most; turn++) {
    var key = board.join("/");
    if (key in seen) {
      return "turn " + turn + " is as turn " + seen[key];
    }
    seen[key] = turn;
    board = next(board);
  }
  return "nothing comes again in " + most + " turns";
}

function shown(board) {
  for (var row = 0; row < board.length; row++) {
    say(board[row]);
  }
}

var glider = [
  ".#......",
  "..#.....",
  "###.....",
  "........",
  "........",
  "........"
];
var turns = 8, board = glider;
while (turns-- > 0) {
  board = next(board);
}
shown(board);
say("blinker: " + period([".....", "..#..", "..#..", "..#..", "....."], 10));
say("block: " + period(["....", ".##.", ".##.", "...."], 10));
"glider: " + period(glider, 100);
