signature L = sig
  val map : ('a -> 'b) -> 'a list -> 'b list
  val add : int * int -> int
  val divMod : int * int -> int * int
  val ignore : 'a -> unit
  val eq : ''a * ''a -> bool
  val curry : ('a * 'b -> 'c) -> 'a -> 'b -> 'c
end
