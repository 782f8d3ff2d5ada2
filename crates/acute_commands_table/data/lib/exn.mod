(* Exn, version 1.0: an exception as a string.

     to_string e    what the line `uncaught: ..` says of e at the end of a run: its name, and behind a
                    space its string as in a program, if it has one

   It refers to Text, so std:text comes before it on the shelf.

   A program asks for it so:
     import Exn : sig val to_string : exn -> string end version 1.* by "std:exn" *)
module Exn : sig val to_string : exn -> string end version 1.0 =
struct
  val to_string : exn -> string =
    fun (e : exn) ->
      match e with
        Failure (s : string) -> "Failure " ^ Text.literal s
      | Invalid_argument (s : string) -> "Invalid_argument " ^ Text.literal s
      | Not_found -> "Not_found"
      | Division_by_zero -> "Division_by_zero"
      | Match_failure -> "Match_failure"
      | End_of_file -> "End_of_file"
      | Sys_error (s : string) -> "Sys_error " ^ Text.literal s
      | Marshal_failure (s : string) -> "Marshal_failure " ^ Text.literal s
      | Unmarshal_failure (s : string) -> "Unmarshal_failure " ^ Text.literal s
      | Resolve_failure (s : string) -> "Resolve_failure " ^ Text.literal s
      end
end
