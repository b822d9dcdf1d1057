puts '#{x} $host.write(1); // /* */'
