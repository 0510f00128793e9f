signature COUNTERS = sig
  val zero : int
  val limit : int
  val label : string
  val isOpen : bool
  val digits : int
  val step : real
  val advance : int -> int
  val add : int * int -> int
  val below : int -> int -> bool
  val divide : int * int -> int * int
end
