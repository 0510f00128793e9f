signature TREES = sig
  type key = string
  datatype 'a tree = Leaf | Node of 'a tree * key * 'a * 'a tree
  exception Missing of key
  type 'a entries = (key * 'a) list
  val empty : 'a tree
  val insert : key * 'a -> 'a tree -> 'a tree
  val find : 'a tree -> key -> 'a option
  val entries : 'a tree -> 'a entries
  val ofEntries : 'a entries -> 'a tree
  val sort : 'a entries -> 'a entries
  val compare : key * key -> order
end
