# Texts as arguments.
def longer(a, b)
  if a.length < b.length
    b
  else
    a
  end
end

def is_name(text, name)
  text == name
end

first = "a text"
second = "another text"
found = 0
size = 0
i = 0
while i < 9_000_000
  best = longer(first, second)
  found += 1 if is_name(best, "another text")
  size += best.length
  i += 1
end
puts found
puts size
