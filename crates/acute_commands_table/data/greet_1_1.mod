(* Its second version, with another word and one more value:
   acute run greet.ac --shelf greet_1_1.shelf *)
module Greet : sig
  val greet : string -> string
  val leave : string -> string
end version 1.1 =
struct
  val greet : string -> string = fun (who : string) -> "Good day, " ^ who ^ "!\n"
  val leave : string -> string = fun (who : string) -> "Good bye, " ^ who ^ "!\n"
end
