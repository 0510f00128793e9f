signature TEXT = sig
  val blank : string
  val size : string -> int
  val join : string -> string list -> string
  val split : (char -> bool) -> string -> string list
  val explode : string -> char list
  val implode : char list -> string
  val substring : string * int * int -> string
  val compare : string * string -> order
  val isPrefix : string -> string -> bool
  val translate : (char -> string) -> string -> string
end
