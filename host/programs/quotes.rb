puts '"quoted"'
puts '</script>'
