puts 'Zürich, 東京'
puts '😀 𝄞'
