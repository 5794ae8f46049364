# A list that is summed and measured by methods that call themselves.
class Link
  def initialize(value, rest)
    @value = value
    @rest = rest
  end
  def sum
    if @rest
      @value + @rest.sum
    else
      @value
    end
  end
  def length
    return 1 unless @rest
    1 + @rest.length
  end
end
list = nil
100.times { |i| list = Link.new(i, list) }
s = 0
60_000.times do
  s += list.sum
  s -= list.length
end
puts s
