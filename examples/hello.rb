puts 'Hello, world!'
puts 'Grüße'
