puts ''
