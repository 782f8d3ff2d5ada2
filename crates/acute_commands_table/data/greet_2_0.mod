(* Its third version, which asks for the language too, so it serves no program of the first:
   acute run greet.ac --shelf greet_2_0.shelf *)
module Greet : sig val greet : string * string -> string end version 2.0 =
struct
  val greet : string * string -> string =
    fun (asked : string * string) ->
      match asked with
        ("fr", (who : string)) -> "Bonjour, " ^ who ^ "!\n"
      | (_, (who : string)) -> "Hello, " ^ who ^ "!\n"
      end
end
