puts ' line and paragraph separators '
puts '﻿mark'
