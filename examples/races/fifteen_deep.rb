# A thread that starts a thread, fifteen deep. Each has its own maker's answer and adds one.
def down(more)
  return 0 if more == 0
  Thread.new(more) { |left| down(left - 1) }.value + 1
end
p down(15)
