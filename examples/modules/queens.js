// Queens on a board, none of which attacks another: a search that goes a row further as long as there is a place, and a step back where not.
function newBoard(size) {
  // Which columns and diagonals a queen holds, by their numbers.
  var columns = [], rising = [], falling = [], places = [];
  for (var i = 0; i < 2 * size; i++) {
    columns.push(false);
    rising.push(false);
    falling.push(false);
  }

  function mark(row, column, held) {
    columns[column] = rising[row + column] = falling[row - column + size] = held;
  }

  function isFree(row, column) {
    return !columns[column] && !rising[row + column] && !falling[row - column + size];
  }

  // Calls found with the columns of each solution.
  function place(row, found) {
    if (row === size) {
      found(places.slice(0, size));
      return;
    }
    for (var column = 0; column < size; column++) {
      if (isFree(row, column)) {
        places[row] = column;
        mark(row, column, true);
        place(row + 1, found);
        mark(row, column, false);
      }
    }
  }

  return function (found) { place(0, found); };
}

function count(size) {
  var solutions = 0;
  newBoard(size)(function () { solutions++; });
  return solutions;
}

// The first solution; the search is left by throwing it.
function first(size) {
  try {
    newBoard(size)(function (places) { throw places; });
  } catch (thrown) {
    if (cajita.isArray(thrown)) {
      return thrown;
    }
    throw thrown;
  }
  return null;
}

function shown(places) {
  for (var row = 0; row < places.length; row++) {
    var line = "";
    for (var column = 0; column < places.length; column++) {
      line += places[row] === column ? "Q" : ".";
    }
    say(line);
  }
}

var counts = [];
for (var size = 1; size <= 6; size++) {
  counts.push(count(size));
}
shown(first(8));
say("on three rows: " + first(3));
counts.join(" ");
