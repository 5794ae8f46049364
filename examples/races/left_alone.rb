# A thread that starts others and joins none waits for them at its own end.
$done = [0, 0, 0, 0]
outer = Thread.new do
  4.times do |number|
    Thread.new(number) do |own|
      i = 0
      while i < 100
        $done[own] += 1
        i += 1
      end
    end
  end
  :started
end
p outer.value, $done
