x = 1
t = Thread.new { puts x }
x = 2
