signature COLLECTIONS = sig
  val empty : 'a list
  val singleton : 'a -> 'a list
  val length : 'a list -> int
  val map : ('a -> 'b) -> 'a list -> 'b list
  val filter : ('a -> bool) -> 'a list -> 'a list
  val partition : ('a -> bool) -> 'a list -> 'a list * 'a list
  val fold : ('a * 'b -> 'b) -> 'b -> 'a list -> 'b
  val zip : 'a list * 'b list -> ('a * 'b) list
  val unzip : ('a * 'b) list -> 'a list * 'b list
  val member : ''a -> ''a list -> bool
  val indexOf : ''a * ''a list -> int
  val forEach : ('a -> unit) -> 'a list -> unit
  val sortBy : ('a * 'a -> order) -> 'a list -> 'a list
end
