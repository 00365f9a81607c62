// Search in breadth: the moves of a knight from a corner to each square of a board, by a queue.
// ./caja run --steps 10000000 < examples/bench/search.js
var SIZE = 8;
var moves = [[1, 2], [2, 1], [2, -1], [1, -2], [-1, -2], [-2, -1], [-2, 1], [-1, 2]];

function search(column, row) {
  var far = {}, queue = [column + SIZE * row], head = 0, tail = 1;
  far[queue[0]] = 0;
  while (head < tail) {
    var square = queue[head++], x = square % SIZE, y = square >> 3;
    for (var i = 0; i < moves.length; i++) {
      var nextX = x + moves[i][0], nextY = y + moves[i][1], next = nextX + SIZE * nextY;
      if (nextX >= 0 && nextX < SIZE && nextY >= 0 && nextY < SIZE && !(next in far)) {
        far[next] = far[square] + 1;
        queue[tail++] = next;
      }
    }
  }
  return far;
}

var counts = [0, 0, 0, 0, 0, 0, 0];
for (var corner = 0; corner < 12; corner++) {
  var far = search(corner % 8, corner % 3);
  for (var square in far) counts[far[square]]++;
}
counts.join(" ");
