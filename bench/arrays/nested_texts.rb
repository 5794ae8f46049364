# Arrays in arrays, and hashes in them, are made and printed.
def nested(depth, seed)
  return { name: "leaf", value: seed } if depth == 0
  [nested(depth - 1, seed + 1), "depth", depth, nested(depth - 1, seed + 2)]
end

100.times { |i| p nested(12, i) }
