# Sorting by insertion.
def sort(values)
  1.upto(values.length - 1) do |i|
    value = values[i]
    place = i
    while place > 0 && values[place - 1] > value
      values[place] = values[place - 1]
      place -= 1
    end
    values[place] = value
  end
  values
end

values = []
seed = 42
11_000.times do
  seed = (seed * 1103 + 12345) % 65521
  values << seed
end
sort(values)
puts values.first, values[5500], values.last
