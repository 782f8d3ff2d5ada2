(* Text, version 1.0: strings that are searched, taken apart and put together.

   A byte is a string of length 1. A blank is " ", "\t", "\r" or "\n". Places count from 0.

     index part text           the first place at which `part` is in `text`, None if it isn't there
     index_from part i text    the same from place i on; Invalid_argument "index" if i is below 0
     has part text             whether `part` is somewhere in `text`
     starts part text          whether `text` starts with `part`
     ends part text            whether `text` ends with `part`
     split between text        the pieces between the places of `between`, from the left: one piece more
                               than places; Invalid_argument "split" if `between` is empty
     join between pieces       the pieces with `between` in the gaps: it undoes `split`
     replace (old, new) text   `text` with `new` for each `old`, from the left; raises as `split` does
     trim text                 `text` without the blanks at both ends
     repeat n text             `text` n times, nothing if n is below 1
     pad_left width text       `text` with spaces before it, up to that length
     pad_right width text      `text` with spaces after it, up to that length
     upper text, lower text    the letters a to z as A to Z, and back; other bytes stay
     map f text                what `f` gives for each byte, from the left, in one string
     bytes text                the list of its bytes
     code byte                 a byte's number, 0 to 255; Invalid_argument "code" if it isn't one byte
     byte n                    the byte of that number; Invalid_argument "sub" if there is none
     literal text              `text` as a string is written in a program, with its quotes

   Long strings are put together by halves, since the machine keeps each part until the run ends.

   A program asks for it so, with those lines of the signature that it wants:
     import Text : sig val trim : string -> string end version 1.* by "std:text" *)
module Text : sig
  val index : string -> string -> int option
  val index_from : string -> int -> string -> int option
  val has : string -> string -> bool
  val starts : string -> string -> bool
  val ends : string -> string -> bool
  val split : string -> string -> string list
  val join : string -> string list -> string
  val replace : string * string -> string -> string
  val trim : string -> string
  val repeat : int -> string -> string
  val pad_left : int -> string -> string
  val pad_right : int -> string -> string
  val upper : string -> string
  val lower : string -> string
  val map : (string -> string) -> string -> string
  val bytes : string -> string list
  val code : string -> int
  val byte : int -> string
  val literal : string -> string
end version 1.0 =
struct
  val index_from : string -> int -> string -> int option =
    fun (part : string) -> fun (from : int) -> fun (text : string) ->
      let size : int = Str.length part in
      let last : int = Str.length text - size in
      let rec find (i : int) : int option =
        if last < i then (None : int option)
        else if Str.sub (text, i, size) = part then Some i
        else find (i + 1) in
      if from < 0 then raise (Invalid_argument "index") : int option else find from
  val index : string -> string -> int option = fun (part : string) -> index_from part 0
  val has : string -> string -> bool =
    fun (part : string) -> fun (text : string) ->
      match index part text with None -> false | Some _ -> true end
  val starts : string -> string -> bool =
    fun (part : string) -> fun (text : string) ->
      let size : int = Str.length part in
      not (Str.length text < size) && Str.sub (text, 0, size) = part
  val ends : string -> string -> bool =
    fun (part : string) -> fun (text : string) ->
      let size : int = Str.length part in
      let more : int = Str.length text - size in
      not (more < 0) && Str.sub (text, more, size) = part

  val split : string -> string -> string list =
    fun (between : string) -> fun (text : string) ->
      let rec pieces (from : int) : string list =
        match index_from between from text with
          None -> Str.sub (text, from, Str.length text - from) :: ([] : string list)
        | Some (at : int) -> Str.sub (text, from, at - from) :: pieces (at + Str.length between)
        end in
      if between = "" then raise (Invalid_argument "split") : string list else pieces 0
  val join : string -> string list -> string =
    fun (between : string) ->
      let rec pairs (pieces : string list) : string list =
        match pieces with
          (a : string) :: (b : string) :: (rest : string list) -> a ^ between ^ b :: pairs rest
        | _ -> pieces
        end in
      rec join (pieces : string list) : string =
        match pieces with
          [] -> ""
        | (whole : string) :: [] -> whole
        | _ -> join (pairs pieces)
        end
  val replace : string * string -> string -> string =
    fun (pair : string * string) -> fun (text : string) ->
      match pair with ((old : string), (new : string)) -> join new (split old text) end

  val is_blank : string -> bool =
    fun (byte : string) -> byte = " " || byte = "\t" || byte = "\r" || byte = "\n"
  val trim : string -> string =
    fun (text : string) ->
      let rec first (i : int) : int =
        if i < Str.length text && is_blank (Str.sub (text, i, 1)) then first (i + 1) else i in
      let begin : int = first 0 in
      let rec last (i : int) : int =
        if begin < i && is_blank (Str.sub (text, i - 1, 1)) then last (i - 1) else i in
      Str.sub (text, begin, last (Str.length text) - begin)
  val repeat : int -> string -> string =
    fun (n : int) -> fun (text : string) ->
      let rec times (n : int) : string =
        if n < 1 then ""
        else
          let half : string = times (n / 2) in
          if n mod 2 = 0 then half ^ half else half ^ half ^ text in
      times n
  val pad_left : int -> string -> string =
    fun (width : int) -> fun (text : string) -> repeat (width - Str.length text) " " ^ text
  val pad_right : int -> string -> string =
    fun (width : int) -> fun (text : string) -> text ^ repeat (width - Str.length text) " "

  val map : (string -> string) -> string -> string =
    fun (f : string -> string) ->
      rec go (text : string) : string =
        let size : int = Str.length text in
        if size = 0 then ""
        else if size = 1 then f text
        else
          let half : int = size / 2 in
          let left : string = go (Str.sub (text, 0, half)) in
          left ^ go (Str.sub (text, half, size - half))
  val bytes : string -> string list =
    fun (text : string) ->
      let rec from (i : int) : string list =
        if i = Str.length text then ([] : string list) else Str.sub (text, i, 1) :: from (i + 1) in
      from 0

  (* All bytes in their order. *)
  val all : string =
    "\x00\x01\x02\x03\x04\x05\x06\x07\x08\t\n\x0b\x0c\r\x0e\x0f\x10\x11\x12\x13\x14\x15\x16\x17\x18\x19\x1a\x1b\x1c\x1d\x1e\x1f !\"#$%&'()*+,-./0123456789:;<=>?@ABCDEFGHIJKLMNOPQRSTUVWXYZ[\\]^_`abcdefghijklmnopqrstuvwxyz{|}~\x7f\x80\x81\x82\x83\x84\x85\x86\x87\x88\x89\x8a\x8b\x8c\x8d\x8e\x8f\x90\x91\x92\x93\x94\x95\x96\x97\x98\x99\x9a\x9b\x9c\x9d\x9e\x9f\xa0\xa1\xa2\xa3\xa4\xa5\xa6\xa7\xa8\xa9\xaa\xab\xac\xad\xae\xaf\xb0\xb1\xb2\xb3\xb4\xb5\xb6\xb7\xb8\xb9\xba\xbb\xbc\xbd\xbe\xbf\xc0\xc1\xc2\xc3\xc4\xc5\xc6\xc7\xc8\xc9\xca\xcb\xcc\xcd\xce\xcf\xd0\xd1\xd2\xd3\xd4\xd5\xd6\xd7\xd8\xd9\xda\xdb\xdc\xdd\xde\xdf\xe0\xe1\xe2\xe3\xe4\xe5\xe6\xe7\xe8\xe9\xea\xeb\xec\xed\xee\xef\xf0\xf1\xf2\xf3\xf4\xf5\xf6\xf7\xf8\xf9\xfa\xfb\xfc\xfd\xfe\xff"
  (* A byte is found by halving: each line keeps the half that has it. *)
  val code : string -> int =
    fun (byte : string) ->
      let a : int = if byte < Str.sub (all, 128, 1) then 0 else 128 in
      let b : int = if byte < Str.sub (all, a + 64, 1) then a else a + 64 in
      let c : int = if byte < Str.sub (all, b + 32, 1) then b else b + 32 in
      let d : int = if byte < Str.sub (all, c + 16, 1) then c else c + 16 in
      let e : int = if byte < Str.sub (all, d + 8, 1) then d else d + 8 in
      let f : int = if byte < Str.sub (all, e + 4, 1) then e else e + 4 in
      let g : int = if byte < Str.sub (all, f + 2, 1) then f else f + 2 in
      let h : int = if byte < Str.sub (all, g + 1, 1) then g else g + 1 in
      if Str.length byte = 1 then h else raise (Invalid_argument "code") : int
  val byte : int -> string = fun (n : int) -> Str.sub (all, n, 1)

  (* The byte so many places on, if the byte is one of those from `first` to `last`. *)
  val moved : string * string * int -> string -> string =
    fun (job : string * string * int) -> fun (byte : string) ->
      match job with ((first : string), (last : string), (places : int)) ->
        if byte < first || last < byte then byte else Str.sub (all, code byte + places, 1)
      end
  val upper : string -> string = fun (text : string) -> map (moved ("a", "z", -32)) text
  val lower : string -> string = fun (text : string) -> map (moved ("A", "Z", 32)) text

  val digit : int -> string = fun (n : int) -> Str.sub ("0123456789abcdef", n, 1)
  val escaped : string -> string =
    fun (byte : string) ->
      match byte with
        "\\" -> "\\\\"
      | "\"" -> "\\\""
      | "\n" -> "\\n"
      | "\t" -> "\\t"
      | "\r" -> "\\r"
      | _ ->
          if byte < " " || "~" < byte then
            let n : int = code byte in "\\x" ^ digit (n / 16) ^ digit (n mod 16)
          else byte
      end
  val literal : string -> string = fun (text : string) -> "\"" ^ map escaped text ^ "\""
end
