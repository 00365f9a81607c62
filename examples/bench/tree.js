// A tree: numbers put into a binary search tree of records, walked in order, and looked for.
// ./caja run --steps 10000000 < examples/bench/tree.js
function insert(node, key) {
  if (node === null) return {key: key, left: null, right: null};
  if (key < node.key) node.left = insert(node.left, key);
  else if (key > node.key) node.right = insert(node.right, key);
  return node;
}

function depth(node) {
  return node === null ? 0 : 1 + Math.max(depth(node.left), depth(node.right));
}

function sum(node) {
  return node === null ? 0 : sum(node.left) + node.key + sum(node.right);
}

function has(node, key) {
  while (node !== null && node.key !== key) {
    node = key < node.key ? node.left : node.right;
  }
  return node !== null;
}

var root = null, key = 1, found = 0;
for (var i = 0; i < 500; i++) {
  key = key * 137 % 1009;
  root = insert(root, key);
}
for (var wanted = 1; wanted <= 1009; wanted++) {
  if (has(root, wanted)) found++;
}
"depth " + depth(root) + ", sum " + sum(root) + ", found " + found;
