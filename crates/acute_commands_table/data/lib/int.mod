(* Int, version 1.0: numbers from strings and back.

     of_string text    the number that `text` writes in decimal digits, perhaps with "-" before them;
                       None for any other text, and for a number that doesn't have 64 bits
     to_string n       n in decimal digits, as Str.of_int
     min a b, max a b  the lesser, the greater
     abs n             n without its sign; the least number stays, since it has no opposite

   A program asks for it so, with those lines of the signature that it wants:
     import Int : sig val of_string : string -> int option end version 1.* by "std:int" *)
module Int : sig
  val of_string : string -> int option
  val to_string : int -> string
  val min : int -> int -> int
  val max : int -> int -> int
  val abs : int -> int
end version 1.0 =
struct
  val digit : string -> int option =
    fun (byte : string) ->
      match byte with
        "0" -> Some 0 | "1" -> Some 1 | "2" -> Some 2 | "3" -> Some 3 | "4" -> Some 4
      | "5" -> Some 5 | "6" -> Some 6 | "7" -> Some 7 | "8" -> Some 8 | "9" -> Some 9
      | _ -> (None : int option)
      end
  (* The number that the digits from place i on write, as one below 0: there is one more of these. *)
  val below_zero : string * int * int -> int option =
    rec go (at : string * int * int) : int option =
      match at with ((text : string), (i : int), (so_far : int)) ->
        if i = Str.length text then Some so_far
        else
          match digit (Str.sub (text, i, 1)) with
            None -> (None : int option)
          | Some (d : int) ->
              if so_far < -922337203685477580 || so_far = -922337203685477580 && 8 < d then
                (None : int option)
              else go (text, i + 1, 10 * so_far - d)
          end
      end
  val of_string : string -> int option =
    fun (text : string) ->
      if text = "" || text = "-" then (None : int option)
      else if Str.sub (text, 0, 1) = "-" then below_zero (text, 1, 0)
      else
        match below_zero (text, 0, 0) with
          None -> (None : int option)
        | Some (n : int) -> if - n < 0 then (None : int option) else Some (- n)
        end
  val to_string : int -> string = Str.of_int
  val min : int -> int -> int = fun (a : int) -> fun (b : int) -> if b < a then b else a
  val max : int -> int -> int = fun (a : int) -> fun (b : int) -> if a < b then b else a
  val abs : int -> int = fun (n : int) -> if n < 0 then - n else n
end
