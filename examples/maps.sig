(* Finite maps and sets over keys that are ordered. *)
signature ORDERED = sig
  type t
  val compare : t * t -> order
end

signature MAP = sig
  structure Key : ORDERED
  type 'a map
  val empty : 'a map
  val insert : 'a map * Key.t * 'a -> 'a map
  val find : 'a map -> Key.t -> 'a option
  val foldli : (Key.t * 'a * 'b -> 'b) -> 'b -> 'a map -> 'b
end

signature SET = sig
  include ORDERED
  type set
  val add : t * set -> set
  val member : set -> t -> bool
end

signature KEYED = sig
  structure Map : MAP
  structure Set : SET where type t = Map.Key.t
  structure Log : sig type key type log val entries : log -> (key * Time.time) list end
  sharing type Log.key = Map.Key.t
  val keys : 'a Map.map -> Set.set
  val since : Time.time -> Log.log -> Log.key list
end

structure StringMap : MAP where type Key.t = string
