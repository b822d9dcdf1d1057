require 'opal'
class Item
  include Comparable
  attr_reader :name, :price
  def initialize(name, price)
    @name = name
    @price = price
  end
  def <=>(other)
    price <=> other.price
  end
  def to_s
    "#{name} (#{price})"
  end
end
class Cart
  include Enumerable
  def initialize
    @items = []
  end
  def add(name, price)
    raise ArgumentError, "bad price: #{price}" if price < 0
    @items << Item.new(name, price)
    self
  end
  def each(&block)
    @items.each(&block)
  end
end
cart = Cart.new.add('tea', 350).add('jam', 420).add('tea', 360)
cart.each_with_index do |item, i|
  puts "#{i + 1}. #{item}"
end
counts = Hash.new(0)
cart.each { |item| counts[item.name] += 1 }
counts.each { |name, n| puts "#{name}: #{n}" }
puts "most: #{cart.max}"
puts cart.map(&:price).sum
begin
  cart.add('x', -1)
rescue ArgumentError => e
  puts "refused: #{e.message}"
end
p cart.select { |item| item > cart.first }.map(&:name)
