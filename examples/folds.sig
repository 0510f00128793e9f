signature FOLDS = sig
  val foldl : ('a * 'b -> 'b) -> 'b -> 'a list -> 'b
  val fold_left : ('b -> 'a -> 'b) -> 'b -> 'a list -> 'b
  val reduce : 'a list * ('a -> 'b -> 'b) -> 'b -> 'b
  val fold1 : ('a * 'a -> 'a) -> 'a list -> 'a option
  val range : int list -> int * int
  val iter : ('a -> unit) -> 'a list -> unit
  val delayed : unit -> 'a list
end
