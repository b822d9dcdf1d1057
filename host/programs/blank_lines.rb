puts 'ends with a newline of its own'
puts ''
puts ''
