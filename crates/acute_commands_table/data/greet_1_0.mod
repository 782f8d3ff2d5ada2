(* The first version of a library, on a shelf: acute run greet.ac --shelf greet_1_0.shelf *)
module Greet : sig val greet : string -> string end version 1.0 =
struct
  val greet : string -> string = fun (who : string) -> "Hello, " ^ who ^ "!\n"
end
