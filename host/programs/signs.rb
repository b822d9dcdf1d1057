puts '%s %d {} [] () use strict'
puts 'use strict'
