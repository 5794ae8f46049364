# Each thread takes the most that there may be under evaluation at once, and its maker does then.
def down(left)
  return 0 if left == 0
  1 + down(left - 1)
end
def go(more)
  return down(240) if more == 0
  own = Thread.new(more) { |left| go(left - 1) }
  down(240) + own.value
end
p go(15)
